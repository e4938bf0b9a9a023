// Not for go/types: of variables in a circle it tells the first alone.

package variables

type T int

var a1 []a2 // ERROR 10:E10
var a2 []a1 // ERROR 10:E10

var b1 *b2 // ERROR 9:E10
var b2 func(b3) // ERROR 13:E10
var b3 map[string]b1 // ERROR 19:E10

const c1 c2 = 1 // ERROR 10:E10

var c2 []c1 // ERROR 10:E10

var (
	d1, d2 []d3 // ERROR 11:E10
	d3     chan struct{ f d2 } // ERROR 24:E10
	d4     interface{ M(d5) } // ERROR 22:E10
	d5     func() (d6, T) // ERROR 17:E10
	d6     []d4 // ERROR 11:E10
)

// One needs the next one's type, so that each is in a cycle of declarations.
var e1 e2 // ERROR 5:E4
var e2 e1 // ERROR 5:E4

// No circles.
var f1 []f2 // ERROR 10:E10
var f2 int
var f3 nowhere // ERROR 8:E3
var f4 f3
var f5 []f4
var f6 struct{ f6 *T }
