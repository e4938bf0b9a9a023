// Not for go/types: it goes on with a type of which a part is faulty; here it is none.

package types

type A1 struct{ a nowhere; f func() } // ERROR 19:E3
type A2 struct{ a, a []int } // ERROR 20:E14
type A3 interface{ M(); M(int) } // ERROR 25:E14
type A6 func(int, nowhere) // ERROR 19:E3

type B1 map[A1]int
type B2 map[A2]int
type B4 struct{ *A3 }
type B5 interface{ A3; M() bool }
type B6 interface{ A1 }
type B7 map[struct{ a nowhere; f func() }]int // ERROR 23:E3

const C1 A1 = 1
const C2 A2 = 1
const C3 A3 = 1
const C4 A6 = 1
