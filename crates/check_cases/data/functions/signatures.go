// Parameters and results of functions.

package functions

const c = 1

var v int

type T struct{ a []int }
type U = T

func a1()
func a2(int, string) (bool, error)
func a3(a, b int, c ...string) (x, y int)
func a4(_ int, _ ...T) (_ U, _ error)
func a5(int int, x int) (string string)
func a6(nowhere) // ERROR 9:E3
func a7(a nowhere) int // ERROR 11:E3
func a8() nowhere // ERROR 11:E3
func a9() (int, nowhere) // ERROR 17:E3
func b1(...nowhere) // ERROR 12:E3
func b2(c) // ERROR 9:E10
func b3(a, b v) // ERROR 14:E10
func b4() a1 // ERROR 11:E10
func b5(...c) (v, len) // ERROR 12:E10 16:E10 19:E10
func b6(a int, b a) // ERROR 18:E3
func b7(n int, x [n]int) // ERROR 19:E3
func b8() (n int, x [n]int) // ERROR 22:E3
func b9([T]int) // ERROR 10:E24
func c1([-1]int) // ERROR 9:E11
func c2(map[T]int, ...map[int]c) // ERROR 13:E12 31:E10
func c3() map[U]T // ERROR 15:E12
func c4(func(nowhere) c) // ERROR 14:E3 23:E10
func c5(struct{ a, a int }) interface{ T } // ERROR 20:E14 40:E15
func c9(d1 T) (d2 U)
func d1(_) // ERROR 9:E10
func d2() (iota, nil) // ERROR 12:E3 18:E10
func _(nowhere) // ERROR 8:E3
func _(T) U
func d3(d3 int)
func d4(a, b []true) // ERROR 16:E10
