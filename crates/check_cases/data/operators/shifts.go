// Shifts.

package operators

const (
	I8 int8 = 1
	N8 int8 = -1
	S  string = "s"
	T  bool = true
	A1 = 1 << 3 == 8
	A2 = 1 << -1 // ERROR 7:E36
	A3 = 1 >> -1 // ERROR 7:E36
	A4 = I8 << N8 // ERROR 7:E36
	A5 = 1 << "1" // ERROR 7:E36
	A6 = 1 << true // ERROR 7:E36
	A9 = "a" << 1 // ERROR 7:E37
	B1 = true << 1 // ERROR 7:E37
	B2 = S >> 1 // ERROR 7:E37
	B3 = T >> 1 // ERROR 7:E37
	B4 = 'a' << 1
	B5 = 1 << 'a' >> 'a'
	B6 = I8 << 6
	B7 = I8 << 7 // ERROR 7:E30
	B8 = 1 << I8
	B9 = -1 >> 1
	C1 = -8 >> 1
	C2 uint8 = 1<<8 - 1
	C3 uint8 = 1 << 8 // ERROR 13:E32
	C4 = 1 << 0
	C5 = 1 << (2 - 1)
	C6 = 1 << (1 - 2) // ERROR 7:E36
	C7 = I8 >> 100
)
