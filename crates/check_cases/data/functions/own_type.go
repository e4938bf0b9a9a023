// Functions and variables whose names stand in their own types, and what has no name there.

package functions

type T int
type U struct{ a, b *U }
type V func(a8) // ERROR 13:E10

func a1(a1) // ERROR 9:E10
func a2() *a2 // ERROR 12:E10
func a3(func([]a3)) // ERROR 16:E10
func a4(a ...a4) a4 // ERROR 14:E10 18:E10
func a5(a5 int) (x T)
func (T) a6(a6) // ERROR 13:E3
func (T) a7() []a7 // ERROR 17:E3
func (T) T(T) T
func a8(V)

var b1 *b1 // ERROR 9:E10
var b2 func(b2) // ERROR 13:E10
var b3, b4 []b4 // ERROR 14:E10
var b5 struct{ b5 int }
var b6 interface{ b6(b6 T) }
