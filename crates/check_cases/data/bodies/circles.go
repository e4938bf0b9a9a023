// Package variables that are initialised in a circle.

package bodies

var a = f()              // ERROR 5:E5

func f() int { return a }

var b = func() int { return g() }() // ERROR 5:E5

func g() int {
	if false {
		return h()
	}
	return 1
}

func h() int { return b }

var i, j = l()           // ERROR 5:E5

func l() (int, int) { return i, 1 }

type I interface{ n() int }

type U struct{}

func (U) n() int { return o }

var o = I(U{}).n()

var p int

func q() int { return p }

var r = q()
