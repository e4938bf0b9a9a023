// Not for go/types: of variables of one circle it tells one.

package bodies

var a = m()                 // ERROR 5:E5

func m() int { return b }

var b = func() int { return c.n() }() // ERROR 5:E5

type C struct{ n func() int }

var c = C{n: f}             // ERROR 5:E5

func f() int { return a }

// what leads to a circle isn't in it, nor what one leads to

var d = a + 1

var e = g()

func g() int { return b }

var h = 1

var i, j = pair()           // ERROR 5:E5 8:E5

func pair() (int, int) { return j, i + h }

// two circles that meet in a function

var k = both()              // ERROR 5:E5

var l = both()              // ERROR 5:E5

func both() int { return k + l }
