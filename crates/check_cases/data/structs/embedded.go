// Embedded fields.

package structs

type E struct{ x int }
type G interface{ M() }
type P *E
type PP P
type PG *G
type U = E
type UG = G
type UP = P
type L []int

const c = 1

var v int

type A1 struct{ E }
type A2 struct {
	*E
	x int
}
type A3 struct {
	E
	E int // ERROR 2:E14
}
type A4 struct {
	E
	*E // ERROR 3:E14
}
type A5 struct {
	E int
	*E "tag" // ERROR 3:E14
}
type A6 struct{ G }
type A7 struct{ *G } // ERROR 17:E13
type A8 struct{ P } // ERROR 17:E13
type A9 struct{ *P } // ERROR 17:E13
type B1 struct{ PP } // ERROR 17:E13
type B2 struct{ PG } // ERROR 17:E13
type B3 struct{ *UG } // ERROR 17:E13
type B4 struct{ UP } // ERROR 17:E13
type B5 struct {
	E
	U
}
type B6 struct {
	U
	*U // ERROR 3:E14
}
type B7 struct{ int; *string }
type B8 struct{ int; int } // ERROR 22:E14
type B9 struct{ error; E }
type C1 struct{ *error } // ERROR 17:E13
type C2 struct{ nowhere } // ERROR 17:E3
type C3 struct{ *nowhere } // ERROR 18:E3
type C4 struct{ c } // ERROR 17:E10
type C5 struct{ *v } // ERROR 18:E10
type C6 struct{ *L; UG }
type C7 struct {
	G
	*G // ERROR 2:E13 3:E14
}
type C8 struct{ P; a, a int } // ERROR 17:E13 23:E14
type C9 []struct{ *G } // ERROR 19:E13
type D1 func(struct{ *G }) struct{ P } // ERROR 22:E13 36:E13
type D2 struct{ Late }
type D3 struct{ *Late } // ERROR 17:E13
type D4 = struct{ *Late } // ERROR 19:E13
type Late interface{ D5 }
type D5 interface{ m() D3 }

var w struct{ P } // ERROR 15:E13
