// Predeclared names that are declared again.

package names

const iota = 5
const true = 0
const A1 uint8 = iota - 5
const A2 uint8 = 5 - iota
const A3 uint8 = true
const int = 1
const A4 int = 1 // ERROR 10:E10
const (
	A5 = iota
	A6
)
const A7 uint8 = A6 - 5
const A8 uint8 = 5 - A6
const string string = "a" // ERROR 7:E4
