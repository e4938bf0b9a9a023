// Methods, declared before and behind their types.

package accepted

func (A1) M1()
func (a A1) M2(int) string
func (a *A1) M3(a1, a2 A1, a3 ...A2) (x, y A1)
func (*A1) m1() A1
func (_ A1) M4()
func (A1) _()
func (*A1) _(int)

type A1 int
type A2 = A1
type A3 = *A1
type A4 struct {
	A1
	*A5
	a, b int
}
type A5 []A4
type A6 map[string]A6
type A7 func(A7)
type A8 chan A8
type A9 [2]A4

func (A2) M5()
func (*A2) M6()
func (A3) M7()
func (A4) M1()
func (*A4) m1()
func (A4) A()
func (A4) init(int) int
func (A5) M1()
func (*A6) M1()
func (A7) M1()
func (A8) a(A8)
func (A9) b()
func ((A9)) c()
func (*(A9)) d()
func (x *A9) A9(A9 int)
func M1()
func m1(A1) A4
