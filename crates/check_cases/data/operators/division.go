// Division by zero.

package operators

const (
	Z       = 0
	Z8 int8 = 0
	I8 int8 = 7
	A1 = 1 / 0 // ERROR 7:E31
	A2 = 1 % 0 // ERROR 7:E31
	A3 = 1 / Z // ERROR 7:E31
	A4 = I8 / 0 // ERROR 7:E31
	A5 = I8 % Z8 // ERROR 7:E31
	A6 = 0 / 1
	A7 = 'a' / (1 - 1) // ERROR 7:E31
	A8 = I8 % 4
	A9 = 1 / (2 - 2) + 1 // ERROR 7:E31
)
