// Aliases and interfaces that need themselves.

package cycles

type A1 = A1 // ERROR 6:E4
type A2 = A3 // ERROR 6:E4
type A3 = A2 // ERROR 6:E4
type A4 = *A4 // ERROR 6:E4
type A5 = struct{ a *A5 } // ERROR 6:E4
type A6 = []A6 // ERROR 6:E4
type A7 = func(A7) // ERROR 6:E4
type A8 = map[string]A9 // ERROR 6:E4
type A9 = chan A8 // ERROR 6:E4
type B1 = interface{ M(B1) } // ERROR 6:E4
type B2 interface{ B2 } // ERROR 6:E4
type B3 interface{ B4 } // ERROR 6:E4
type B4 interface{ B3 } // ERROR 6:E4
type B7 interface{ M(); B8 } // ERROR 6:E4
type B8 interface{ N(); B9 } // ERROR 6:E4
type B9 interface{ B7 } // ERROR 6:E4
type C5 struct{ a C6 }
type C6 = *C7
type C7 struct{ a []C5 }
type C8 interface{ M() interface{ N(C8) } }
type C9 interface{ B2 }
type D1 = []A2
type D2 = []D3
type D3 struct{ a D2; D4 }
type D4 interface{ M(D2, D3) D4 }

var d5 A1
var d6 []B2

func d7(A4, B3) A9
