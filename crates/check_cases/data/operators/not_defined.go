// Operators that aren't defined on their operands.

package operators

const (
	S string = "s"
	T bool   = true
	A1 = "a" - "b" // ERROR 7:E34
	A2 = "a" * "b" // ERROR 7:E34
	A3 = "a" & "b" // ERROR 7:E34
	A4 = true + true // ERROR 7:E34
	A5 = true < false // ERROR 7:E34
	A6 = true | false // ERROR 7:E34
	A7 = 1 && 2 // ERROR 7:E34
	A8 = "a" || "b" // ERROR 7:E34
	A9 = !1 // ERROR 7:E34
	B1 = !"a" // ERROR 7:E34
	B2 = -"a" // ERROR 7:E34
	B3 = +true // ERROR 7:E34
	B4 = ^"a" // ERROR 7:E34
	B5 = ^true // ERROR 7:E34
	B6 = -T // ERROR 7:E34
	B7 = S - S // ERROR 7:E34
	B8 = T >= T // ERROR 7:E34
	B9 = S % S // ERROR 7:E34
	C1 = nil == nil // ERROR 7:E35
	C2 = nil != nil // ERROR 7:E35
	C3 = S == S
	C4 = T != T
	C5 = 'a' || 'b' // ERROR 7:E34
)
