// Not for go/types: floats, complex numbers and wide integers lie outside the profile.

package limits

const A1 = 1.5 // ERROR 12:outside-float
const A2 = 1 << 3 == 8. // ERROR 22:outside-float
const A3 = 1i // ERROR 12:outside-complex
const A4 float32 = 1 // ERROR 10:outside-float
const A5 float64 = 1 // ERROR 10:outside-float
const A6 complex64 = 1 // ERROR 10:outside-complex
const A7 complex128 = 1 // ERROR 10:outside-complex
const A8 = 1 << 127 // ERROR 12:outside-wide
const A9 = 1 << 126
const B1 = -1 << 127
const B2 = 170141183460469231731687303715884105728 // ERROR 12:outside-wide
const B3 = 170141183460469231731687303715884105727
const B4 = -170141183460469231731687303715884105728 // ERROR 13:outside-wide
const B5 = B3 + 1 // ERROR 12:outside-wide
const B6 = B5 - 1
const B7 uint8 = 1<<127 + 1 // ERROR 18:outside-wide
const B8 = 1<<127 - 1 - 1<<126 // ERROR 12:outside-wide
const B9 = 1e3 + 1 // ERROR 12:outside-float
const C1 = 0x1p4 // ERROR 12:outside-float
const C2 = -(2.5) // ERROR 14:outside-float
const (
	C3 = 1 << (126 + iota)
	C4 // ERROR 2:outside-wide
	C5 // ERROR 2:outside-wide
)
const (
	D1 = 1.5 + iota // ERROR 7:outside-float
	D2 // ERROR 2:outside-float
)
