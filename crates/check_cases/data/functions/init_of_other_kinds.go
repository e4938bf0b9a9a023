// A type and variables that are called init.

package functions

type init int // ERROR 6:E2
type T [init]int // ERROR 9:E3

var init int // ERROR 5:E1
var a, init string // ERROR 8:E1
var b init // ERROR 7:E3
var c T

const d init = 1 // ERROR 9:E3

func f(init) // ERROR 8:E3
func g(init int)
func (init) m() // ERROR 7:E3
func (*init) m() // ERROR 8:E3
