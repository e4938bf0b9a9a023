// The types of constant expressions.

package operators

type B bool
type S2 string

const (
	I8 int8   = 1
	C  uint64 = 3
	S  string = "s"
	T  bool   = true
	A1 B = S == S
	A2 B = T && true // ERROR 9:E32
	A3 B = true || T // ERROR 9:E32
	A4 B = !T // ERROR 9:E32
	A5 B = !true
	A6 B = I8 < 2
	A7 B = T != T
	A8 = (1 < 2) + 1 // ERROR 7:E33
	A9 = (1 < 2) && T
	B1 S2 = "a" + "b"
	B2 S2 = "a" + S // ERROR 10:E32
	B3 S2 = S + "b" // ERROR 10:E32
	B4 int16 = I8 + 1 // ERROR 13:E32
	B5 int16 = 1 + I8 // ERROR 13:E32
	B6 int16 = I8 << 1 // ERROR 13:E32
	B7 int16 = 1 << I8
	B8 int16 = I8 >> C // ERROR 13:E32
	B9 int16 = -I8 // ERROR 13:E32
	C1 int16 = ^I8 // ERROR 13:E32
	C2 int16 = +I8 // ERROR 13:E32
	C3 int16 = 'a' << 1
	C4 int16 = -'a'
	C5 int16 = (I8) // ERROR 13:E32
	C6 string = 'a' + 1 // ERROR 14:E32
)
