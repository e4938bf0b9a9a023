// Variables in the values of constants: what fits there isn't constant.

package variables

type T struct{ a int }

var v int
var w int8
var s []int
var t string
var b bool

const A1 = v // ERROR 12:E97
const A2 int = v // ERROR 16:E97
const A3 = v + 1 // ERROR 12:E97
const A4 = -v // ERROR 12:E97
const A5 = v + w // ERROR 12:E33
const C4 = s + s // ERROR 12:E34
const C6 = !v // ERROR 12:E34
const C7 = v << t // ERROR 12:E36
const C8 = t << 1 // ERROR 12:E37
const C9 = v / 0 // ERROR 12:E31
const D1 = v && b // ERROR 12:E33
const D2 = b && true // ERROR 12:E97
const D3 = t + "a" // ERROR 12:E97
const D4 = t + 1 // ERROR 12:E33
const D5 = (v) // ERROR 12:E97
const E2 = v << -1 // ERROR 12:E36
const E3 = w + 1000 // ERROR 12:E33
