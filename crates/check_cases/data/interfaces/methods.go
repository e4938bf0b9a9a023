// The methods of interfaces.

package interfaces

const c = 1

var v int

type A1 interface{}
type A2 interface {
	M()
	N()
}
type A3 interface {
	M()
	M() // ERROR 2:E14
}
type A4 interface {
	M()
	N()
	M(int) // ERROR 2:E14
	N() int // ERROR 2:E14
}
type A5 interface{ M(); M(); M() } // ERROR 25:E14 30:E14
type A6 interface {
	M()
	m()
}
type A7 interface{ M(a, b int, c ...string) (x, y int) }
type A8 interface{ M(nowhere) } // ERROR 22:E3
type A9 interface{ M() c } // ERROR 24:E10
type B1 interface{ M(a, b v) } // ERROR 27:E10
type B2 interface{ M(...c) ([]v, nowhere) } // ERROR 25:E10 31:E10 34:E3
type B3 interface{ M(B3) B3 }
type B4 interface{ M(); N(M) } // ERROR 27:E3
type B5 interface{ M(map[[]int]int) } // ERROR 26:E12
type B6 interface{ M(interface{ N(); N() }) } // ERROR 38:E14
type B7 []interface{ M(); M() } // ERROR 27:E14
type B8 struct{ interface1; a interface{ M(); M(int) } } // ERROR 47:E14
type B9 = interface{ M(); M() } // ERROR 27:E14
type interface1 interface{ init(); main() }

var w interface{ M(); M() } // ERROR 23:E14

func f(interface{ M(); M() }) interface{ N(); N() } // ERROR 24:E14 47:E14
