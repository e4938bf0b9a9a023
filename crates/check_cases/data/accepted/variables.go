// Variables.

package accepted

type T struct{ a, b int }

const n = 2

var A1 int
var A2, A3 string
var (
	A4     []T
	A5, A6 *T
	A7     map[T][]T
	A8, _  [n][n + 1]T
)
var A9 func(T, ...int) (a, b error)
var B1 struct {
	T
	*B2
	x, y interface{ M(B2) }
}
var B3 chan<- <-chan chan T
var B4, B5, B6 B2
var _ int
var _, _ string
var _ struct{ a, b struct{ a int } }
var int8 int16
var b7 B8
var main T
var len, cap, nil bool

type B2 []B8
type B8 interface{ error; m(B2) }

const B9 = 'b'

var c1 [B9]T
var c2 (T)
var c3 *(func())
