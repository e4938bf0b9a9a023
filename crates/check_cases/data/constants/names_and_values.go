// How many names and values a specification has.

package constants

const A1, A2 = 1 // ERROR 7:E99
const B1 = 1, 2 // ERROR 7:E99
const C1 // ERROR 7:E99
const (
	D1 // ERROR 2:E99
	D2 = 1
)
const (
	E1, E2 = iota, iota
	E3 // ERROR 2:E99
	E4, E5, E6 // ERROR 2:E99
	E7, E8
)
const F1, F2, F3 = 1, "2", false
const G1 int = 1, 2 // ERROR 7:E99
