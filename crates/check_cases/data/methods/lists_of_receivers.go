// Lists in front of methods that don't have one receiver.

package methods

type T int

func () m1() // ERROR 6:E16
func (a, b T) m2() // ERROR 12:E16
func (a T, b int) m3() // ERROR 9:E16
func (T, T) m4() // ERROR 7:E16
func (a, b, c *T) m5() // ERROR 15:E16
func (x int, y T) m6() // ERROR 9:E16
func (x ...T) m7() // ERROR E16
func (T) m8()
func (T) m1()
func (T) m7()
func (T) m8() // ERROR 10:E14
