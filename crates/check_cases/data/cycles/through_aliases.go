// Not for go/types: of a circle of a defined type and an alias it tells the type alone.

package cycles

type A1 interface{ A2 } // ERROR 6:E4
type A2 = A1 // ERROR 6:E4
type A3 A4 // ERROR 6:E4
type A4 = A3 // ERROR 6:E4
type A5 struct{ A6 } // ERROR 6:E4
type A6 = A5 // ERROR 6:E4
type A7 = A8 // ERROR 6:E4
type A8 struct{ a [2]A7 } // ERROR 6:E4
type A9 struct{ a *B1 }
type B1 = A9
type B2 = struct{ a B3 }
type B3 []B2

var b4 A2
var b5 B1

func b6(A4, A6) B3
func (A9) M(A8)
