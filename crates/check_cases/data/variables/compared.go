// Variables that are compared in the values of constants: where they may be, that isn't constant.

package variables

type T struct{ a int }

var v int
var s []int
var m map[string]int
var p, q *int
var f func()
var i interface{}
var e error
var st T
var sf struct{ f func() }
var arr [2]int
var c chan int
var rc <-chan int
var sc chan<- int

const A6 = v == nil // ERROR 12:E33
const A7 = s == nil // ERROR 12:E97
const A8 = s == s // ERROR 12:E35
const A9 = m == m // ERROR 12:E35
const B1 = f == f // ERROR 12:E35
const B2 = f == nil // ERROR 12:E97
const B3 = st == st // ERROR 12:E97
const B4 = sf == sf // ERROR 12:E35
const B5 = p == q // ERROR 12:E97
const B6 = p == v // ERROR 12:E33
const B7 = i == v // ERROR 12:E97
const B8 = e == v // ERROR 12:E33
const B9 = c == rc // ERROR 12:E97
const C1 = rc == sc // ERROR 12:E33
const C2 = i == 1 // ERROR 12:E97
const C3 = e == nil // ERROR 12:E97
const C5 = st < st // ERROR 12:E34
const D6 = arr == arr // ERROR 12:E97
const D7 = i == s // ERROR 12:E35
const D8 = nil == v // ERROR 12:E33
const D9 = i < i // ERROR 12:E34
const E1 = e == st // ERROR 12:E33
