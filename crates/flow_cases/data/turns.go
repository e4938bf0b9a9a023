// Functions of a circle and of a chain, in an order in which a single pass from the first to the last finds too few.
package a

// stops panic

var c bool

func f() { // ERROR never returns
	g()
}

func g() { // ERROR never returns
	if c {
		f()
	}
	panic("x")
}

func h1() { // ERROR never returns
	h2()
}

func h2() { // ERROR never returns
	h3()
}

func h3() { // ERROR never returns
	for {
	}
}

func r1() {
	r2()
}

func r2() {
	r1()
}

func own() {
	own()
}

func half() {
	if c {
		half()
		return
	}
	h1()
}

func literal() {
	func() {
		h1()
	}()
	_ = func() { h1() }
}

func inLiteral() { // ERROR never returns
	h1()
	_ = func() int {
		return 1
	}
}

// the same chain the other way round
func k3() { // ERROR never returns
	for {
	}
}

func k2() { // ERROR never returns
	k3()
}

func k1() { // ERROR never returns
	k2()
}

// a circle of three: each waits for the next, and nothing but that keeps them from returning
func c1() {
	c2()
}

func c2() {
	if c {
		panic("x")
	}
	c3()
}

func c3() {
	if c {
		c1()
	} else {
		k1()
	}
}

// a circle with a way out of it that never returns
func d1() { // ERROR never returns
	d2()
}

func d2() { // ERROR never returns
	if c {
		d1()
	}
	d3()
}

func d3() { // ERROR never returns
	for {
		d1()
	}
}

type T int

// methods by their names, before and behind what they call
func (t T) first() { // ERROR never returns
	t.second()
}

func (t T) second() { // ERROR never returns
	k1()
}

func (t T) third() {
	t.fourth()
}

func (t T) fourth() {
	t.third()
}

// nothing can call these, so that they are no members
func init() {
	k1()
}

func _() {
	k1()
}
