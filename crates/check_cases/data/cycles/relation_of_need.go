// Not for go/types: the profile's relation of need leads further.

package cycles

type A1 interface{ M(interface{ A1 }) } // ERROR 6:E4
type A2 interface{ M() interface{ A3 } } // ERROR 6:E4
type A3 interface{ N(A2, interface{ A2 }) } // ERROR 6:E4
type B1 [b2]int // ERROR 6:E4

const b2 B3 = 1

type B3 int

func (B3) m(B1)

type C1 [c2]int // ERROR 6:E4

const c2 C3 = 1

type C3 struct{ p *C1 }

var d1 A1
var d2 []B1
