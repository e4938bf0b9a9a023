// Typed constants that overflow.

package operators

const (
	I8  int8   = 100
	M8  int8   = -128
	U8  uint8  = 200
	U64 uint64 = 1<<64 - 1
	I64 int64  = -1 << 63
	A1 = I8 + 100 // ERROR 7:E30
	A2 = I8 + I8 // ERROR 7:E30
	A3 = I8 * 2 // ERROR 7:E30
	A4 = I8 - 100
	A5 = M8 - 1 // ERROR 7:E30
	A6 = -M8 // ERROR 7:E30
	A7 = M8 / -1 // ERROR 7:E30
	A8 = U8 + 100 // ERROR 7:E30
	A9 = -U8 // ERROR 7:E30
	B1 = ^U8
	B2 = U64 + 1 // ERROR 7:E30
	B3 = U64 * U64 // ERROR 7:E30
	B4 = U64 * U64 * U64 // ERROR 7:E30
	B5 = I64 - 1 // ERROR 7:E30
	B6 = -I64 // ERROR 7:E30
	B7 = U8 << 1 // ERROR 7:E30
	B8 = U8 >> 1
	B9 = U8 &^ 255
	C1 uint8 = U8 + 56 // ERROR 13:E30
	C2 = U8 - U8
	C3 = U8 - 201 // ERROR 7:E30
	C4 uint8 = ^U8
	C5 = ^I8
)
