// Types that need themselves.

package cycles

type A1 A1 // ERROR 6:E4
type A2 A3 // ERROR 6:E4
type A3 A2 // ERROR 6:E4
type A4 struct{ A4 } // ERROR 6:E4
type A5 struct{ a A5 } // ERROR 6:E4
type A6 struct{ a [2]A6 } // ERROR 6:E4
type A7 [2]A7 // ERROR 6:E4
type A8 struct{ a A9 } // ERROR 6:E4
type A9 struct{ a [1]A8 } // ERROR 6:E4
type B1 struct{ a, b B1 } // ERROR 6:E4
type B2 struct{ a B3; b nowhere } // ERROR 6:E4 25:E3
type B3 struct{ a struct{ b B4 } } // ERROR 6:E4
type B4 [1][2]B2 // ERROR 6:E4
type B5 (B5) // ERROR 6:E4
type B6 struct{ *B6; a B6 } // ERROR 6:E4
type B7 struct{ *B7; a []B7 }
type B8 struct{ a A1; b []A2 }
type B9 A3
type C1 []C1
type C2 map[string]C2
type C3 chan C3
type C4 func(C4) C4
type C5 *C5
type C6 interface{ M(C6) C6 }
type C7 struct{ a C8 }
type C8 struct{ b *C7 }
type C9 [2]*C9

func (A1) M()
func (A4) M(A5) A6

var d3 A1
var d4, d5 struct{ A4 }
