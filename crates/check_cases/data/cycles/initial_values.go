// Variables that reach themselves by references in initial values.

package cycles

var a1 int = a1 // ERROR 5:E5
var a2 interface{} = a2 // ERROR 5:E5
var a3 []int = []int{1, len(a3)} // ERROR 5:E5
var a4 [2]int = [2]int{len(a4), 1} // ERROR 5:E5

var b1 int = b2 // ERROR 5:E5
var b2 int = b1 // ERROR 5:E5

var (
	b3 int  = b4 // ERROR 2:E5
	b4 int  = 2 * *b5 // ERROR 2:E5
	b5 *int = &b3 // ERROR 2:E5
)

// What leads to a circle is in none.
var b6 int = b7
var b7 int = b8 // ERROR 5:E5
var b8 int = b7 // ERROR 5:E5

var c1, c2 int = c2, c1 // ERROR 5:E5 9:E5
var c3, c4 int = c4, 1

// One value gives both their values.
func c5(int) (int, int)

var c6, c7 int = c5(c7) // ERROR 9:E5

// A variable without a type needs itself, and is refused as that.
var d1 = d1 // ERROR 5:E4
var d2 = d3 // ERROR 5:E4
var d3 int = d2 // ERROR 5:E5

type S struct {
	e1 int
	e2 *S
}
type T = S
type U map[int]int

// The name of a field is no reference.
var e1 int = S{e1: 2}.e1
var e2 *S = &T{e1, &S{e2: nil}}
var e3 []S = []S{{e1: e1, e2: e2}, 1: {e1: len(e3)}} // ERROR 5:E5
var e4 interface{} = struct{ e4 int }{e4: 1}
var e5 interface{} = (func(e5 int))(nil)
var e6 interface{} = (interface{ e6() })(nil)

// A key of a map, of an array or of a slice is one.
var f1 U = U{f1[0]: 1} // ERROR 5:E5
var f2 U = U{f3: 1} // ERROR 5:E5
var f3 int = f2[0] // ERROR 5:E5
var f4 [2]int = [2]int{f5: 1}
var f6 int = g[f6] // ERROR 5:E5
var g [3]int

const f5 = 1

// A type is no part of the value.
var h1 [h2]int = [2]int{}

const h2 = len(h3)

var h3 [2]int
