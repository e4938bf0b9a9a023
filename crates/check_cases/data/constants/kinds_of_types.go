// Values and the kinds of their types.

package constants

const (
	A1 bool   = true
	A2 bool   = 1 // ERROR 14:E32
	A3 string = "a"
	A4 string = 'a' // ERROR 14:E32
	A5 string = 1 // ERROR 14:E32
	A6 int    = "1" // ERROR 14:E32
	A7 int    = false // ERROR 14:E32
	A8 int    = 'a'
	A9 byte   = 'a'
	B1 byte   = 'ä' + 100 // ERROR 14:E32
	B2 rune   = 'ä'
	B3 bool   = 1 < 2
	B4 int    = 1 < 2 // ERROR 14:E32
	B5 string = "a" + "b"
	B6 int8   = A8Other
	A8Other   = 7
	B7 int16  = A1Typed // ERROR 14:E32
	A1Typed int8 = 1
	B8 int8   = A1Typed
	B9 uint8  = A9
	C1 bool   = A9 // ERROR 14:E32
	C2 uint8  = A9
	C3 int32  = B2
	C4 bool   = "true" // ERROR 14:E32
)
