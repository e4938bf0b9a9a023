// Variables with values.

package variables

func none()

func one() int

func two() (int, string)

var m map[string]int

var c chan bool

var x interface{}

var n01, n02 = 1, 2

var n03 = 1, 2 // ERROR 5:E99

var n04, n05 = 1 // ERROR 5:E99

var n06, n07, n08 = 1, 2 // ERROR 5:E99

var f01, f02 = two()

var f03, f04, f05 = two() // ERROR 5:E99

var f06 = two() // ERROR 11:E25

var f07, f08 = one() // ERROR 5:E99

var f09 = none() // ERROR 11:E24

var f10, f11 = (two())

var f12, f13 = undefined() // ERROR 16:E3

var f14, f15 = undefined // ERROR 5:E99 16:E3

var o01, o02 = m["a"]

var o03, o04 = (<-c)

var o05, o06 = x.(int)

var o07, o08, o09 = m["a"] // ERROR 5:E99

var t01 = nil // ERROR 11:E26

var t02 *int = nil

var t03 int8 = 200 // ERROR 16:E32

var t04, t05 int = 1, "a" // ERROR 23:E32

var t06 int = 1, "a" // ERROR 5:E99 18:E32

var t07 = 1 << 100 // ERROR 11:E30

var t08 = int // ERROR 11:E24

var l01 int = f01

var l02 string = f02

var l03 bool = o02

var l04 int = f02 // ERROR 15:E32

var l05 bool = o04

var l06 int = o01
