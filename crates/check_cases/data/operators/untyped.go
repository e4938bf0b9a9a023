// Untyped operands.

package operators

const (
	A1 = 'a' + 1
	A2 rune = A1
	A3 byte = A1
	A4 string = A1 // ERROR 14:E32
	A5 = 1 + 'a' == 98
	A6 bool = A5
	A7 = "a" + 1 // ERROR 7:E33
	A8 = true + 1 // ERROR 7:E33
	A9 = 1 == "1" // ERROR 7:E33
	B1 = '1' == "1" // ERROR 7:E33
	B2 = true == 1 // ERROR 7:E33
	B3 = "a" < "b"
	B4 = 'a' < 98
	B5 = -1
	B6 = +1
	B7 = ^1
	B8 = !true
	B9 = - - -1
	C1 = ^'a'
	C2 = 7 / 2
	C3 = -7 / 2
	C4 = -7 % 2
	C5 = 6 &^ 2
	C6 = 6 ^ 3
	C7 = 6 | 1
	C8 = 6 & 3
	C9 uint8 = (((250))) + 5
	D1 uint8 = (((250))) + 6 // ERROR 13:E32
)
