// Not for go/types: beside a value that isn't good it says nothing more of a call, of an assignment and of a count.

package statements

var (
	n int
	s string
)

func takes(int, string) int

func use(...interface{})

func told() {
	x := undefined          // ERROR 7:E3
	n = takes(x, 1)         // ERROR 15:E32
	n = takes(x)            // ERROR 6:E51
	n = takes(x, "a", 2)    // ERROR 6:E51
	n, s = x, 1, 2          // ERROR 2:E73
	n = x, 1                // ERROR 2:E73
	n, s = x                // ERROR 2:E73
	n, s = x + 1            // ERROR 2:E73
	n, s = x()
	n, s = x[0]
	n, s = x.(int)
	n, s = <-x
	n, s = (x())
	takes = x               // ERROR 2:E72
	1 = x                   // ERROR 2:E72
	s[0] = x                // ERROR 2:E72
	n += x
	takes += x              // ERROR 2:E72
	n += x, 1               // ERROR 2:E73
	use(int8(x, 1))         // ERROR 6:E54
	var a, b = x            // ERROR 6:E99
	var c, d = x()
	e, f := x               // ERROR 2:E73
	g, h := x[0]
	use(a, b, c, d, e, f, g, h)
}

func results() int {
	x := undefined          // ERROR 7:E3
	return x, 1             // ERROR 2:E87
}
