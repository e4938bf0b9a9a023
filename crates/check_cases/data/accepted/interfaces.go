// Interface types.

package accepted

type T int
type A1 interface{}
type A2 interface {
	M()
	N(int, ...string) (bool, error)
}
type A3 interface {
	m(a, b int, c ...T) (x, y A3)
	M()
}
type A4 interface {
	A2
	A3
}
type A5 interface {
	M()
	A2
	A4
	error
}
type A6 = A5
type A7 interface{ A6; A5; interface1 }
type interface1 interface{ m(int, int, ...T) (A3, A3) }
type A8 interface{ A9 }
type A9 A2
type B1 = interface{ A8; B2 }
type B2 interface{ N(x int, y ...string) (ok bool, err error) }
type B3 interface{ M(B3) interface{ N(B3) } }
type B4 interface{ B5; O(B5) }
type B5 interface{ P(B4) }
type B6 interface{ init(); main(); T(T) T }
type B7 interface{ error; Error() (text string) }
type B8 interface{ B1; B4; B7 }
type B9 []interface{ B3 }

var c1 interface{ B8; m() }

func c2(interface{ M(interface{ M(); N() }) }) interface{ A1 }
