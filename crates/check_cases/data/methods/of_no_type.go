// Not for go/types: to it a method with several receivers is one of the first one's type.

package methods

type T int
type P *T
type I interface{ M() }

func (a, b T) M() // ERROR 12:E16
func (T) M()
func (a T, b int) N() // ERROR 9:E16
func (*T) N()
func (T, T) O() // ERROR 7:E16
func (T, T) O() // ERROR 7:E16
func (T) O()
func (T) O() // ERROR 10:E14
func (P) Q() // ERROR 7:E16
func (P) Q() // ERROR 7:E16
func (I) M() // ERROR 7:E16
func () R() // ERROR 6:E16
func () R() // ERROR 6:E16
func R()

var t T
var i I

const a = i == t // ERROR 11:E97
