// Receivers.

package methods

type T struct{ F int }
type P *T
type PP P
type I interface{ M() }
type J I
type A = T
type Q = *T
type QI = I
type N int
type B = byte
type L []int
type Fn func()

const c = 1

var v int

func f()
func (T) m1()
func (t T) m2()
func (t *T) m3()
func (*T) m4(int) string
func (A) m5()
func (*A) m6()
func (Q) m7()
func (N) m1()
func (*N) m2()
func (L) m1()
func (l *Fn) m1()
func (_ T) m8()
func (P) m8() // ERROR 7:E16
func (*P) m9() // ERROR 7:E16
func (PP) n1() // ERROR 7:E16
func (I) n1() // ERROR 7:E16
func (*I) n2() // ERROR 7:E16
func (J) n1() // ERROR 7:E16
func (x QI) n1() // ERROR 9:E16
func (int) n3() // ERROR 7:E16
func (x *int) n4() // ERROR 9:E16
func (B) n4() // ERROR 7:E16
func ([]T) n5() // ERROR 7:E16
func (**T) n6() // ERROR 7:E16
func (*Q) n7() // ERROR 7:E16
func (error) n8() // ERROR 7:E16
func (struct{}) n9() // ERROR 7:E16
func (map[string]T) n9() // ERROR 7:E16
func (chan T) n9() // ERROR 7:E16
func (func()) n9() // ERROR 7:E16
func (interface{}) n9() // ERROR 7:E16
func (nowhere) o1() // ERROR 7:E3
func (*nowhere) o2() // ERROR 8:E3
func (c) o3() // ERROR 7:E10
func (*v) o4() // ERROR 8:E10
func (f) o5() // ERROR 7:E10
func (int) _() // ERROR 7:E16
