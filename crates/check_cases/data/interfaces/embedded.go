// What interfaces embed.

package interfaces

type A interface{ M() }
type B interface{ N(int) string }
type C interface{ M() int }
type S struct{}
type Alias = A
type P *A
type AP = *A
type AS = S

const c = 1

var v int

func f()

type A1 interface {
	A
	B
}
type A2 interface {
	A
	M()
}
type A3 interface {
	A
	Alias
}
type A4 interface {
	A
	C // ERROR 2:E14
}
type A5 interface {
	A // ERROR 2:E14
	M() int
}
type A6 interface{ S } // ERROR 20:E15
type A7 interface{ P } // ERROR 20:E15
type A8 interface{ int } // ERROR 20:E15
type A9 interface{ error; Error() string }
type B1 interface {
	error // ERROR 2:E14
	Error() int
}
type B2 interface{ nowhere } // ERROR 20:E3
type B3 interface{ c } // ERROR 20:E10
type B4 interface{ v } // ERROR 20:E10
type B5 interface{ f } // ERROR 20:E10
type B6 interface {
	A1
	B7 // ERROR 2:E14
}
type B7 interface{ N() }
type B8 interface {
	A1
	A2
	A3
}
type B9 interface{ AP } // ERROR 20:E15
type C1 interface{ AS } // ERROR 20:E15
type C2 interface{ S; M() } // ERROR 20:E15
type C3 interface{ M() interface{ S } } // ERROR 35:E15
type C4 interface{ A; A }
type C5 interface{ C6; Late } // ERROR 24:E14
type C6 interface{ m(C5) }
type Late interface{ m(C6) }
type C7 = interface{ string } // ERROR 22:E15

var w interface{ S } // ERROR 18:E15

func g(interface{ A; C }) interface{ bool } // ERROR 22:E14 38:E15
