// Keys of maps inside other types, and those that are declared further on.

package types

type S struct{ a []int }
type K struct{ a int }
type F func()
type L []int
type D map[string]int
type Alias = S

const c = 1

var v int

type C1 map[int]map[[]int]int // ERROR 21:E12
type C2 map[map[[]int]int]int // ERROR 13:E12 17:E12
type C3 map[struct{ S }]int // ERROR 13:E12
type C4 map[Alias]int // ERROR 13:E12
type C5 map[C5]int // ERROR 13:E12
type C6 struct{ m map[C6]int } // ERROR 23:E12
type C7 struct{ m map[*C7]int }
type C8 map[Late]int // ERROR 13:E12
type C9 []map[[1]L]int // ERROR 15:E12
type D1 func(map[L]int) map[F]int // ERROR 18:E12 29:E12
type D2 interface{ M(map[L]int) } // ERROR 26:E12
type D3 = map[L]int // ERROR 15:E12
type D4 map[c]int // ERROR 13:E10
type D5 map[int]v // ERROR 17:E10
type D6 map[nowhere]int // ERROR 13:E3
type D7 map[D8]int // ERROR 13:E12
type D8 struct{ m D7 }
type Late struct{ f func() }

var w map[[]string]int // ERROR 11:E12

func g(map[[]byte]int) // ERROR 12:E12
func h() map[F]bool // ERROR 14:E12
func (K) m(map[D]K) // ERROR 16:E12
