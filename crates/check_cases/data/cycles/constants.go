// Constants and types that need each other.

package cycles

const a1 = a2 // ERROR 7:E4
const a2 = a1 // ERROR 7:E4
const a3 = a3 // ERROR 7:E4
const a4 A4 = 1 // ERROR 7:E4
const a5 A5 = 1 // ERROR 7:E4
const a6 A6 = 1 // ERROR 7:E4
const a7 A7 = 1 // ERROR 7:E4

type A4 [a4]int // ERROR 6:E4
type A5 struct{ a [a5]int } // ERROR 6:E4
type A6 *[a6]int // ERROR 6:E4
type A7 = [a7]int // ERROR 6:E4
type B1 func([b1]int) // ERROR 6:E4
type B2 interface{ M([b2]int) } // ERROR 6:E4
type B3 map[string][b3]int // ERROR 6:E4
type B4 [b4]int // ERROR 6:E4
type B5 struct{ a B6 } // ERROR 6:E4
type B6 struct{ a [b6]int } // ERROR 6:E4

const b1 B1 = 1 // ERROR 7:E4
const b2 B2 = 1 // ERROR 7:E4
const b3 B3 = 1 // ERROR 7:E4
const b4 = b5 + 1 // ERROR 7:E4
const b5 B4 = 1 // ERROR 7:E4
const b6 B5 = 1 // ERROR 7:E4

type C1 [a1]int
type C2 [c2]int

const c2 = 2
const c3 = a1 + 1
const c4 []int = c4 // ERROR 7:E4 7:E98

var c5 [c5]int // ERROR 5:E4
var c6 A4
var c7 [c8]string

const c8 = c2

func f1([f1]int) // ERROR 6:E4
func f2(A4) [c8]A5
