// The types that have a name.

package constants

const (
	A1 bool    = false
	A2 int     = 1
	A3 int8    = 1
	A4 int16   = 1
	A5 int32   = 1
	A6 int64   = 1
	A7 uint    = 1
	A8 uint8   = 1
	A9 uint16  = 1
	B1 uint32  = 1
	B2 uint64  = 1
	B3 uintptr = 1
	B4 string  = ""
	B5 byte    = 1
	B6 rune    = 1
	B7 true   = 1 // ERROR 5:E10
	B8 nil    = 1 // ERROR 5:E10
	B9 len    = 1 // ERROR 5:E10
	C1 iota   = 1 // ERROR 5:E10
)
