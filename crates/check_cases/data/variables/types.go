// The types of variables.

package variables

const c = 1

type T struct{ a []int }

func f()

var (
	a1, a2 int
	a3     []T
	a4     [c]*T
	a5     func(int, ...string) (T, error)
	a6     struct{ T; x, y int "tag" }
	a7     interface{ error; M() }
	a8     map[string]<-chan bool
)
var a9 nowhere // ERROR 8:E3
var b1, b2 nowhere // ERROR 12:E3
var b3 f // ERROR 8:E10
var b4 c // ERROR 8:E10
var b5 a1 // ERROR 8:E10
var b6 nil // ERROR 8:E10
var b7 true // ERROR 8:E10
var b8 iota // ERROR 8:E3
var b9 len // ERROR 8:E10
var c1 []a2 // ERROR 10:E10
var c2 func(nowhere) // ERROR 13:E3
var c3 func() (nowhere, int) // ERROR 16:E3
var c4 func(...c) // ERROR 16:E10
var c5 map[T]int // ERROR 12:E12
var c6 [-1]T // ERROR 8:E11
var c7 [a1]T // ERROR 8:E11
var c8 [nowhere]nowhere // ERROR 9:E3 17:E3
var c9 struct{ a, a int } // ERROR 19:E14
var d1 interface{ T } // ERROR 19:E15
var d2 struct{ *error } // ERROR 16:E13
var d5 any // ERROR 8:E3
var _ nowhere // ERROR 7:E3
var _, _ T
var (
	d6, _, d7 []nowhere // ERROR 14:E3
	d8        chan<- f // ERROR 19:E10
)
