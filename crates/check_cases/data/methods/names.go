// The names of methods.

package methods

type T struct {
	F int
	*E
	N
}
type E struct{ G, m1 int }
type N int
type A = T
type Q = *T

func (T) m1()
func (t T) m2()
func (T) m1() // ERROR 10:E14
func (*T) m1() // ERROR 11:E14
func (T) F() // ERROR 10:E14
func (*T) F(int) // ERROR 11:E14
func (N) m1()
func (N) F()
func (T) _()
func (T) _()
func (A) m2() // ERROR 10:E14
func (*A) m2(int) string // ERROR 11:E14
func (Q) m1() // ERROR 10:E14
func (T) E() // ERROR 10:E14
func (T) N() // ERROR 10:E14
func (T) G()
func (E) G() // ERROR 10:E14
func (E) m1() // ERROR 10:E14
func (T) o1(nowhere) // ERROR 13:E3
func (T) o2() nowhere // ERROR 15:E3
func (T) o1() // ERROR 10:E14
func (T) f()
func (T) init(int) string
func (T) main()
func (N) T()
func m1()
func (N) m1(nowhere) // ERROR 10:E14 13:E3
func (Late) M()
func (Late) L() // ERROR 13:E14
func (*Late) M() // ERROR 14:E14

type Late struct{ L int }
