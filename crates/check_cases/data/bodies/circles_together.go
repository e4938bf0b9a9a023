// Not for go/types: of variables of one circle it tells one.

package bodies

var b = func() int { return c }() // ERROR 5:E5

var c = g()              // ERROR 5:E5

func g() int {
	if false {
		return h()
	}
	return 1
}

func h() int { return b }
