// What typed constants can represent.

package constants

const (
	A1 int8   = 127
	A2 int8   = 128 // ERROR 14:E32
	A3 int8   = -128
	A4 int8   = -129 // ERROR 14:E32
	A5 int16  = 32767
	A6 int16  = 32768 // ERROR 14:E32
	A7 int32  = 1<<31 - 1
	A8 int32  = 1 << 31 // ERROR 14:E32
	A9 rune   = 1 << 31 // ERROR 14:E32
	B1 int64  = 1<<63 - 1
	B2 int64  = 1 << 63 // ERROR 14:E32
	B3 int64  = -1 << 63
	B4 int    = 1 << 63 // ERROR 14:E32
	B5 uint8  = 255
	B6 uint8  = 256 // ERROR 14:E32
	B7 byte   = 256 // ERROR 14:E32
	B8 uint8  = -1 // ERROR 14:E32
	B9 uint16 = 0xffff
	C1 uint16 = 0x10000 // ERROR 14:E32
	C2 uint32 = 1<<32 - 1
	C3 uint32 = 1 << 32 // ERROR 14:E32
	C4 uint64 = 1<<64 - 1
	C5 uint64 = 1 << 64 // ERROR 14:E32
	C6 uint   = -1 // ERROR 14:E32
	C7 uintptr = 1<<64 - 1
	C8 uintptr = 1 << 64 // ERROR 15:E32
	C9 uint8  = 200 + 100 // ERROR 14:E32
)
