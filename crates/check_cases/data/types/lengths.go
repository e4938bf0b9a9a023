// The lengths of arrays.

package types

const n = 3
const big = 1 << 40
const neg = -1
const text = "a"
const flag = true
const small int8 = 5
const letter = 'a'

type count int

const typed count = 4

var v int

type T struct{}

func f() int

type A1 [n]int
type A2 [small + n]int
type A3 [typed]int
type A4 [letter]int
type A5 [0]int
type A6 [(n)]int
type A7 [big >> 38]int
type A8 [neg]int // ERROR 9:E11
type A9 [text]int // ERROR 9:E11
type B1 [flag]int // ERROR 9:E11
type B2 [v]int // ERROR 9:E11
type B3 [f]int // ERROR 9:E11
type B5 [nil]int // ERROR 9:E11
type B6 [n - 4]int // ERROR 9:E11
type B8 [1 << 63]int // ERROR 9:E11
type B9 [1<<63 - 1]int
type C3 [-n]int // ERROR 9:E11
type C4 [^0]int // ERROR 9:E11
type C5 [!flag]int // ERROR 9:E11
type C6 [n == 3]int // ERROR 9:E11
type D8 [n][neg][n]int // ERROR 12:E11
type D9 [n]*[text]int // ERROR 13:E11
type E1 [v + 1]int // ERROR 9:E11
type E3 [(neg)]int // ERROR 9:E11
type E5 [n % 2][n][typed]T
