// Types whose names are declared before, and predeclared names that are declared again.

package types

type A int
type A string // ERROR 6:E1
type B = bool
type B = string // ERROR 6:E1
type (
	C  struct{}
	C  struct{} // ERROR 2:E1
	D  = A
	D  = B // ERROR 2:E1
	_  int
	_  string
	_  nowhere // ERROR 5:E3
)
type init int // ERROR 6:E2
type int string
type byte = rune
type error struct{}
type nil int8
type uint16 uint16 // ERROR 6:E4
type iota bool

const A1 int = "x"
const A2 int = 1 // ERROR 16:E32
const A3 byte = -1
const A4 uint8 = -1 // ERROR 18:E32
const A5 error = 1 // ERROR 7:E98 18:E32
const A6 nil = 100
const A7 nil = 200 // ERROR 16:E32
const A8 = iota // ERROR 12:E24
const A9 uint16 = "a"
const B1 B = true
const B2 C = 1 // ERROR 7:E98 14:E32
