// Package variables that are initialised in a circle, through functions: a circle of one variable each.

package bodies

func use(...interface{}) int

// methods of an interface, and a conversion to it, are no references

type I interface{ called() int }

type W struct{}

func (W) called() int { return j }

var j = I(W{}).called()

var k = I.called(W{})

var l I = W{}

// the method of a type that isn't selected, and fields of the same name

type X struct{ called int }

var m = X{called: 1}.called

func (X) other() int { return m }

// through functions, one after the other, and those that call themselves

var n = first()             // ERROR 5:E5

func first() int { return second() }

func second() int { return third() }

func third() int {
	if n > 0 {
		return first()
	}
	return 1
}

var o = recursive(1)

func recursive(n int) int {
	if n == 0 {
		return 0
	}
	return recursive(n - 1)
}

// a function that is named only, or passed

var p = apply(passed)       // ERROR 5:E5

func apply(f func() int) int { return f() }

func passed() int { return p }

var q = map[string]func() int{"a": held} // ERROR 5:E5

func held() int { return len(q) }

// assigned in a function, which is a reference all the same; its address; a use in a nested literal

var r = sets()              // ERROR 5:E5

func sets() int {
	r = 1
	return 2
}

var s = addresses()         // ERROR 5:E5

func addresses() *int {
	v := 1
	use(&s)
	return &v
}

var u = nests()             // ERROR 5:E5

func nests() func() int {
	return func() int {
		return func() int { return use(u) }()
	}
}

// what a name of a body's own hides is no reference

var v = hides()

func hides() int {
	v := 1
	return v
}

func hides2(w int) int { return w }

var w = hides2(1)

// several variables of one value, of which one is in a circle

var x, y = pair()           // ERROR 8:E5

func pair() (int, int) { return use(y), 1 }

// in a statement of each kind

var z = statements()        // ERROR 5:E5

func statements() int {
	switch {
	case false:
		for i := range []int{} {
			if i > 0 {
				defer use(z)
			}
		}
	}
	return 1
}

// init is no part of a circle

var bb = 1

func init() { bb = use(bb) }
