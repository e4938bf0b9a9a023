// What is called init.

package functions

type T struct{ init int }
type U int
type I interface{ init() }

func init(int) // ERROR 6:E2
func init() int // ERROR 6:E2
func init() (a, b int) // ERROR 6:E2
func init(...T) (x U) // ERROR 6:E2
func init(nowhere) // ERROR 6:E2 11:E3
func (U) init(int) string
func f(init int) (x T)
func g(init) // ERROR 8:E3
func h() *init // ERROR 11:E3

var a init // ERROR 7:E3
var b []init // ERROR 9:E3
var c [init]int // ERROR 8:E3

const d = init // ERROR 11:E3
const e init = 1 // ERROR 9:E3
