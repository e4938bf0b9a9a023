// Package variables that are initialised in a circle, through functions and methods: a circle of one variable each.

package bodies

type T struct{ n int }

func use(...interface{}) int

// called, as a value of a method, and of a type

var a = t.called()          // ERROR 5:E5

func (T) called() int { return a }

var b = t.value             // ERROR 5:E5

func (T) value() int { use(b); return 1 }

var c = T.expression        // ERROR 5:E5

func (T) expression() int { use(c); return 1 }

var d = (*T).pointer        // ERROR 5:E5

func (*T) pointer() int { use(d); return 1 }

var e = (&T{}).called2()    // ERROR 5:E5

func (t *T) called2() int { return e }

var f = func() int { return T{}.called3() } // ERROR 5:E5

func (t T) called3() int { use(f); return 1 }

var t T

// a method that is embedded, at one and at two levels, behind a pointer too

type U struct{ T }

type V struct{ *U }

var g = U{}.embedded()      // ERROR 5:E5

func (T) embedded() int { return g }

var h = V.embedded2         // ERROR 5:E5

func (T) embedded2() int { use(h); return 1 }

var i = V{}.embedded3       // ERROR 5:E5

func (U) embedded3() int { use(i); return 1 }

// methods that call one another

var aa = t.even(2)          // ERROR 5:E5

func (t T) even(n int) bool { return n == 0 || t.odd(n-1) }

func (t *T) odd(n int) bool {
	if n < 0 {
		return aa
	}
	return n != 0 && t.even(n-1)
}

// an interface that is embedded leads to no method that is declared, and a field to none

type I interface{ inner() int }

type W struct{ I }

type P struct{}

func (P) inner() int { return j }

var j = W{P{}}.inner()

type F struct {
	T
	called func() int
}

var k = F{}.called()

func (T) field() int { return k }

// a method that has to have an address isn't selected of what has none

var l = T{}.addressed()     // ERROR 9:E22

func (*T) addressed() int { return l }

// a type in a function has no methods but those that it embeds

var m = func() int {        // ERROR 5:E5
	type T struct{ U }
	return T{}.local()
}()

func (U) local() int { return m }

var n = func() int {
	type T struct{}
	var t interface{} = T{}
	return len(t.(interface{ outer() string }).outer())
}()

func (T) outer() string { use(n); return "" }
