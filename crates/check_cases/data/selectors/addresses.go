// `*x`, `&x` and `<-x`.

package selectors

type T struct{ n int }

var (
	n    int
	t    T
	pt   *T
	ppt  **T
	a    [2]int
	s    []int
	m    map[string]T
	both chan int
	in   chan<- int
	out  <-chan int
	i    interface{}
)

func made() T
func list() []int

var (
	p01        = &n
	p02        = &t.n
	p03        = &pt.n
	p04        = &a[1]
	p05        = &s[1]
	p06        = &m["a"]   // ERROR 15:E39
	p07        = &m["a"].n // ERROR 15:E39
	p08        = &made()   // ERROR 15:E39
	p09        = &made().n // ERROR 15:E39
	p10        = &list()[0]
	p11        = &T{}
	p12        = &(T{})
	p13        = &((T{1}))
	p14        = &3        // ERROR 15:E39
	p15        = &*pt
	p16        = &(n)
	p17        = &T        // ERROR 16:E24
	p18        = &undefined // ERROR 16:E3
	p19 *int   = &t        // ERROR 15:E32
	p20        = &[]int{1}[0]
	p21        = &[1]int{1}[0] // ERROR 15:E39
	p22        = &nil      // ERROR 16:E26
	p23        = &a[:][0]
	p24        = &"a"      // ERROR 15:E39
)

var (
	v01        = *pt
	v02        = **ppt
	v03        = (*ppt).n
	v04        = *n       // ERROR 15:E40
	v05        = *T       // ERROR 15:E24
	v06        = *undefined // ERROR 16:E3
	v07        = *i       // ERROR 15:E40
	v08 string = *&n      // ERROR 15:E32
	v09        = *nil     // ERROR 16:E26
	v10        = (*T)(nil)
	v11        = (*pt)
	v12        = *new(int)
)

var (
	r01     = <-both
	r02     = <-in       // ERROR 12:E78
	r03, ok = <-out
	r04     = <-n        // ERROR 12:E78
	r05     = <-T        // ERROR 14:E24
	r06 T   = <-both     // ERROR 12:E32
	r07     = (<-both) + 1
	r08     = (<-chan int)(both)
	r09     = []<-chan int{both, in} // ERROR 31:E32
)
