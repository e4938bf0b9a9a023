// Not for go/types: wide types lie outside the profile.

package limits

type A0 = struct{ a, b int }
type A1 = struct{ a, b A0 }
type A2 = struct{ a, b A1 }
type A3 = struct{ a, b A2 }
type A4 = struct{ a, b A3 }
type A5 = struct{ a, b A4 }
type A6 = struct{ a, b A5 }
type A7 = struct{ a, b A6 }
type A8 = struct{ a, b A7 }
type A9 = struct{ a, b A8 }
type A10 = struct{ a, b A9 }
type A11 = struct{ a, b A10 }
type A12 = struct{ a, b A11 } // ERROR 12:outside-wide-type
type A13 = struct{ a, b A12 }
type A14 = struct{ a, b A13 }
type A15 = struct{ a, b A14 }
type A16 = struct{ a, b A15 }
type A17 = struct{ a, b A16 }
type A18 = struct{ a, b A17 }
type A19 = struct{ a, b A18 }

// What is made of a type that isn't in the table is silent.
var X A12

type T struct{ a [3]A13 }

func f(a A11, b A12) A14

// With fields of 8,191 and of 1,023 nodes a struct has 9,215; with one of 2,047 it has too many.
type U struct {
	a A11
	b A8
}

type V struct { // ERROR 8:outside-wide-type
	a A11
	b A9
}
