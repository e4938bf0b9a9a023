// Types that mention themselves and don't need themselves.

package accepted

type A1 []A1
type A2 map[string]A2
type A3 chan A3
type A4 func(A4) A4
type A5 *A5
type A6 interface{ M(A6) A6 }
type A7 struct{ a *A7; b []A7; c func(A7) A7; d map[string]A7 }
type A8 struct{ a A9 }
type A9 struct{ b *A8; *A9 }
type B1 [2]*B1
type B2 struct{ a B3; b B4 }
type B3 []B2
type B4 interface{ M(B2, B3) B4 }
type B5 [b6]*B5
type B7 = []B8
type B8 struct{ a B7 }
type B9 interface{ C1; M(B9) }
type C1 interface{ N(B9, C1) }
type C2 = *C3
type C3 struct{ a C2; b [b6]C2 }
type C4 func() (C4, *C5)
type C5 chan<- C4

const b6 c7 = 2

type c7 int

func (c7) M(B4) c7
func (C3) M(C3, C2)
func c8(A7) func(A8)

var c9 struct{ a A1; b []B2 }
