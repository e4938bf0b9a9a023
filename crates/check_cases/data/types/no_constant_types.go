// Types that no constant has. The value is tested against the type none the less.

package types

type S struct{ a int }
type I interface{ M() }
type Empty interface{}
type F func()
type L []int
type P *int
type A [2]int
type M map[string]int
type C chan int
type K int

func (K) M()

const k K = 1

const A1 S = 1 // ERROR 7:E98 14:E32
const A2 I = 1 // ERROR 7:E98 14:E32
const A3 Empty = 1 // ERROR 7:E98
const A4 F = 1 // ERROR 7:E98 14:E32
const A5 L = "a" // ERROR 7:E98 14:E32
const A6 A = 1 // ERROR 7:E98 14:E32
const A7 M = 1 // ERROR 7:E98 14:E32
const A8 C = 1 // ERROR 7:E98 14:E32
const A9 P = 1 // ERROR 7:E98 14:E32
const B1 []int = 1 // ERROR 7:E98 18:E32
const B2 *int = nil // ERROR 7:E98 17:E97
const B3 interface{} = "a" // ERROR 7:E98
const B4 interface{ M() } = k // ERROR 7:E98
const B5 I = k // ERROR 7:E98
const B6 error = k // ERROR 7:E98 18:E32
const B7, B8 struct{} = 1, "a" // ERROR 7:E98 25:E32 28:E32
const B9 func(int) string = true // ERROR 7:E98 29:E32
const C1 [2]int = 1 // ERROR 7:E98 19:E32
const C2 map[string]int = 1 // ERROR 7:E98 27:E32
const C5 K = 2
const C6 [nowhere]int = 1 // ERROR 11:E3
