// Functions.

package accepted

type T struct{ f func(T) T }
type U = func(...T)

const n = 2

func A1()
func A2(int, string) (bool, error)
func A3(a, b int, c ...string) (x, y int)
func A4(int) func(int) func()
func A5(_ int, _ ...T) (_ U, _ error)
func A6(int int, x int) (string string)
func A7(T T) (U U)
func A8(A8 int)
func A9([n]T, map[string]U, chan<- T, *T) []func() (T, U)
func B1(B2 func(B3 int) (B4 T), B5 ...func())
func B2() (T)
func B3() (a T)
func B4(a interface{ M(); error }, b struct{ T; x, y int }) *struct{}
func B5(
	a int,
	b, c string,
)
func _()
func _(int) string
func _(a, b T)
func main(int) string
func len(T) int
func b6(x [n + 1]int, y ...[2 * n]int) (z [0]T)
