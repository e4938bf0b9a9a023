// What stands behind dots.

package selectors

type A struct {
	n int
	s string
}

type B struct{ n int }

type C struct {
	A
	*B
	m map[string]A
}

type D struct{ C }

type P *A

type I interface{ M() }

type E struct{ I }

type T int

func (T) M()
func (*T) N(int) string
func (T) O(a, b int) (int, bool)

var (
	a  A
	b  *B
	c  C
	d  D
	p  P
	pp **A
	i  I
	pi *I
	e  E
	t  T
	pt *T
)

func made() A
func pair() (A, A)
func nothing()

var (
	s01     = a.n
	s02     = b.n
	s03     = c.n     // ERROR 12:E21
	s04     = c.s
	s05     = c.A.n
	s06     = c.B.n
	s07     = d.s
	s08     = d.n     // ERROR 12:E21
	s09     = d.m["a"].s
	s10     = p.n
	s11     = pp.n    // ERROR 12:E20
	s12     = a.x     // ERROR 12:E20
	s13     = a.n.n   // ERROR 12:E20
	s14     = i.M
	s15     = pi.M    // ERROR 12:E20
	s16     = e.M
	s17     = made().n
	s18     = pair().n // ERROR 12:E25
	s19     = nothing().n // ERROR 12:E24
	s20     = undefined.n // ERROR 12:E3
	s21 int = a.s     // ERROR 12:E32
	s22     = a._     // ERROR 12:E17
	s23     = nil.n   // ERROR 12:E20
	s24     = (a).s
	s25     = (&a).s
	s26     = A{}.s
	s27     = "a".s   // ERROR 12:E20
)

var (
	m01               = t.M
	m02               = t.N
	m03               = pt.M
	m04               = pt.N
	m05               = T(1).M
	m06               = T(1).N   // ERROR 22:E22
	m07               = T.M
	m08               = T.N      // ERROR 22:E22
	m09               = (*T).M
	m10               = (*T).N
	m11               = I.M
	m12               = A.n      // ERROR 22:E20
	m13 func(T)       = T.M
	m14 func(*T, int) = (*T).N   // ERROR 22:E32
	m15               = map[string]T{}["a"].N // ERROR 22:E22
	m16               = []T{1}[0].N
	m17               = [1]T{1}[0].N // ERROR 22:E22
	m18, m19          = t.O(1, 2)
	m20               = (*pt).N(1)
	m21               = pt.O     // a method value
	m22               = t.M()    // ERROR 22:E24
)
