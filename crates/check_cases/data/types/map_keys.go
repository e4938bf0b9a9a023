// The keys of maps.

package types

type S struct{ a []int }
type K struct {
	a int
	b string
}
type F func()
type I interface{ M() }
type A [2]int
type L []int
type D map[string]int
type N struct{ in K }
type B struct{ in S }
type P *S
type Alias = S

const c = 1

var v int

type A1 map[K]int
type A2 map[S]int // ERROR 13:E12
type A3 map[F]int // ERROR 13:E12
type A4 map[I]int
type A5 map[A]int
type A6 map[L]int // ERROR 13:E12
type A7 map[D]int // ERROR 13:E12
type A8 map[[]int]int // ERROR 13:E12
type A9 map[func()]int // ERROR 13:E12
type B1 map[map[int]int]int // ERROR 13:E12
type B2 map[*S]int
type B3 map[chan L]int
type B4 map[[2]S]int // ERROR 13:E12
type B5 map[N]int
type B6 map[B]int // ERROR 13:E12
type B7 map[P]int
type B8 map[struct{ f func() }]int // ERROR 13:E12
type B9 map[struct{ f *func() }]int
