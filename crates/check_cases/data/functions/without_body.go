// Not for go/types: it wants a body of each function init, and names of parameters that differ.

package functions

type T struct{}

func init()
func init()
func init()
func a1(a, a int)
func a2(a int, b string, a bool) (a, b error)
func a3() (x, x T)
func a4(a func(b, b int), c ...T) (c T)
func (a T) a5(a int) (a T)
func a6(a int, _ a) // ERROR 18:E3

type A7 func(a, a int) (a int)
type A8 interface{ M(x, x int) (x T) }

var a9 func(a, a nowhere) // ERROR 18:E3
