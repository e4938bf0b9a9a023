// Operands of no type beside others, and nil.

package operators

const (
	I   int    = 1
	L   int32  = 1
	U   uint   = 1
	N   int    = -1
	U8  uint8  = 200
	I64 int64  = 1<<63 - 1
	S   string = "a"
	T   bool   = true
	A1 = L + I // ERROR 7:E33
	A2 = 100 + U8 // ERROR 7:E30
	A3 = 100 + (U8 - 100)
	A4 = U + -1 // ERROR 7:E33
	A5 = 1 + "a" // ERROR 7:E33
	A6 = S + 1 // ERROR 7:E33
	A7 = U - 2 // ERROR 7:E30
	A8 = I64 + 1 // ERROR 7:E30
	A9 = 0 / 0 // ERROR 7:E31
	B1 = I % (I - 1) // ERROR 7:E31
	B2 = T - T // ERROR 7:E34
	B3 = S < I // ERROR 7:E33
	B4 = S < "b"
	B5 = T != true
	B6 = +S // ERROR 7:E34
	B7 = 1 << N // ERROR 7:E36
	B8 = 1 << 18446744073709551616 // ERROR 7:E36
	B9 = "a" << -1 // ERROR 7:E36
	C1 = 1 == nil // ERROR 7:E33
	C2 = nil + 1 // ERROR 7:E33
	C3 = I != nil // ERROR 7:E33
	C4 = "a" == nil // ERROR 7:E33
	C5 = nil + nil // ERROR 7:E34
	C6 = nil < nil // ERROR 7:E34
	C7 = -nil // ERROR 7:E34
	C8 = !nil // ERROR 7:E34
	C9 = nil << 1 // ERROR 7:E37
	D1 int = nil // ERROR 11:E97
	D2 = 1 + len // ERROR 11:E24
	D3 = 1 << int // ERROR 12:E24
	D4 = 1 << nowhere // ERROR 12:E3
	D5 = nowhere + 1 // ERROR 7:E3
	D6 = -nowhere // ERROR 8:E3
)
