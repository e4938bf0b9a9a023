// Not for go/types: it looks behind an alias of a pointer type, and lets it be embedded.

package structs

type E struct{ x int }
type P = *E
type Q = P
type A1 struct{ P } // ERROR 17:E13
type A2 struct{ Q } // ERROR 17:E13
type A3 struct {
	a int
	P "tag" // ERROR 2:E13
	E
}
type A4 struct{ a struct{ Q } } // ERROR 27:E13

var v struct{ P } // ERROR 15:E13
