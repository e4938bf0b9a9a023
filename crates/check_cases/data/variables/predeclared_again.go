// Variables and functions that have predeclared names.

package variables

var int string
var nil []bool
var true, iota bool

func byte()
func error() bool

var a1 int // ERROR 8:E10
var a2 byte // ERROR 8:E10
var a3 error // ERROR 8:E10
var a4 [2]uint8
var a5 []iota // ERROR 10:E10

const b1 = nil // ERROR 12:E97
const b2 = true // ERROR 12:E97
const b3 = iota // ERROR 12:E97
const b4 = int + 1 // ERROR 12:E33
const b5 = int + "a" // ERROR 12:E97
const b6 = nil == nil // ERROR 12:E35
const b7 = a4 == a4 // ERROR 12:E97
const b8 = true && iota // ERROR 12:E97
const b9 int = 1 // ERROR 10:E10
