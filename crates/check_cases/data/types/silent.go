// A fault is told once: what uses the faulty type is silent.

package types

type A1 [nowhere]int // ERROR 10:E3
type A2 struct{ a nowhere } // ERROR 19:E3
type A3 func(nowhere) // ERROR 14:E3
type A4 interface{ M(nowhere) } // ERROR 22:E3
type A5 nowhere // ERROR 9:E3
type A6 = nowhere // ERROR 11:E3
type A7 A7 // ERROR 6:E4
type A8 [-1]int // ERROR 9:E11

const B1 A1 = 1
const B2 [2]A1 = 1 // ERROR 7:E98 18:E32
const B3 A5 = 1
const B4 A7 = 1
const B5 A8 = 1
const B6 A6 = "a"

var C1 A1
var C2, C3 A6
var C4 []A7
var C5 map[A2]A3

type D1 map[A5]int
type D2 map[A7]int
type D3 map[A1]int
type D4 struct {
	A2
	*A7
	A6
}
type D5 interface{ A4 }
type D6 interface{ A7 }
type D7 [2]A8
type D8 struct{ *A5 }

func (A2) m()
func (*A5) m()
func (A7) m()
func E1(A6, ...A7) (A8, nowhere) // ERROR 25:E3
func (D4) n(nowhere) // ERROR 13:E3
