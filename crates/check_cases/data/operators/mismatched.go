// Operands of two types.

package operators

const (
	I8  int8  = 1
	I16 int16 = 1
	U8  uint8 = 200
	T   bool  = true
	S   string = "s"
	R   rune  = 'r'
	L   int32 = 2
	A1 = I8 + I16 // ERROR 7:E33
	A2 = I8 + 1
	A3 = I8 + 128 // ERROR 7:E33
	A4 = I8 + "a" // ERROR 7:E33
	A5 = I8 == 1
	A6 = I8 == I16 // ERROR 7:E33
	A7 = U8 == 256 // ERROR 7:E33
	A8 = U8 == -1 // ERROR 7:E33
	A9 = R + L
	B1 = R == L
	B2 = T && false
	B3 = T && 1 // ERROR 7:E33
	B4 = T == S // ERROR 7:E33
	B5 = S + "t"
	B6 = S + 't' // ERROR 7:E33
	B7 int8 = I8 * 100
	B8 = U8 == 'a'
	B9 = I8 < U8 // ERROR 7:E33
	C1 = nil == 1 // ERROR 7:E33
	C2 = S == nil // ERROR 7:E33
	C3 = I8 << 1 + I16 // ERROR 7:E33
	C4 = I8<<1 + I8
)
