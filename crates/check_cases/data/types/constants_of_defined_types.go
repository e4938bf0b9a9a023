// Constants of types that are declared.

package types

type count int8
type size = count
type text string
type flag bool
type letter rune
type other int8
type more count

const A1 count = 127
const A2 count = 128 // ERROR 18:E32
const A3 size = -128
const A4 size = -129 // ERROR 17:E32
const A5 text = "a"
const A6 text = 'a' // ERROR 17:E32
const A7 flag = 1 < 2
const A8 flag = 0 // ERROR 17:E32
const A9 letter = 'a'
const B1 letter = "a" // ERROR 19:E32
const B2 = A1 + 1 // ERROR 12:E30
const B3 = A1 - 1
const B4 other = A1 // ERROR 18:E32
const B5 more = A1 // ERROR 17:E32
const B6 size = A1
const B7 int8 = A1 // ERROR 17:E32
const B8 = A1 + B9 // ERROR 12:E33
const B9 other = 1
const C1 flag = A1 == A3
const C2 = A1 == B9 // ERROR 12:E33
const C3 = A5 + "b"
const C4 = A5 + 1 // ERROR 12:E33
const C5 = A5 - A5 // ERROR 12:E34
const C6 = A7 && (A1 == A3)
const C7 bool = A7 // ERROR 17:E32
const C8 = !A1 // ERROR 12:E34
const C9 = A5 << 1 // ERROR 12:E37
const D1 = B9 << -1 // ERROR 12:E36
const D2 = -A5 // ERROR 12:E34
const D3 = 1 << B9
const D4 = A7 == (A1 + 0 == A1) == A5 // ERROR 12:E33
const D5 = A1 / (A1 - 127) // ERROR 12:E31
const D6 = -A3 // ERROR 12:E30
const D7 letter = A9 + 'b'
const D8 = A9 + 'b' + A1 // ERROR 12:E33
