// Not for go/types: of a circle it tells one name alone.

package types

// Through an alias.
type A1 = []a1 // ERROR 13:E10

var a1 A1

type A2 = func(a2) // ERROR 16:E10

func a2(A3)

type A3 = *A2

// Through a type that is declared.
type B1 []b1 // ERROR 11:E10

var b1 B1

type B2 []b2 // ERROR 11:E10

const b2 B2 = 1

type B3 map[string]b3 // ERROR 20:E10

const b4 B3 = 1

var b3 []b4 // ERROR 10:E10

type B4 interface{ M(b5) } // ERROR 22:E10

var b5 interface{ B4 }

type B5 interface{ M(b6) } // ERROR 22:E10

func b6(interface{ B5 })

// No circles of names that are no types.
type C1 []c1 // ERROR 11:E10

var c1 *C2

type C2 struct{ c *C1 }
type C3 []C3
type C4 = []C2
