// Types of all kinds, and constants of them.

package accepted

const n = 3

type A1 int
type A2 = A1
type A3 A2
type A4 [n]A3
type A5 [n + 1][2 * n]*A4
type A6 []A5
type A7 map[A4][]A6
type A8 chan A7
type A9 <-chan A8
type B1 chan<- <-chan A9
type B2 func(A1, ...B1) (A2, error)
type B3 *B2
type B4 struct {
	a, b A1
	B5
}
type B5 interface{ M(B4) B3 }
type B6 (B5)
type B7 [0]struct{}
type (
	B8 = map[string]interface{}
	B9 bool
	C1 string
	_  int
	_  string
)
type C2 [sized]int
type C3 ['a']int
type C4 [1<<63 - 1]struct{}
type C5 map[struct {
	a A1
	b [n]B9
	c interface{}
	d *func()
}]func()

const sized C6 = 2

type C6 uint8

const C7 C6 = 255 - sized
const C8 A2 = A1Value + 1
const A1Value A1 = -1
const C9 B9 = sized < C7
const D1 C1 = "a" + "b"
