// What is silent beside a part that isn't good, and what is told all the same.

package statements

type broken struct{ x undefined } // ERROR 23:E3

var (
	n    int
	s    string
	any  interface{}
	bad  undefined          // ERROR 7:E3
	good broken
)

func two() (int, string)

func gives() undefined      // ERROR 14:E3

func use(...interface{})

func named() {
	x := undefined          // ERROR 7:E3
	x = 1
	x++
	x += "a"
	n = x
	n += x
	use(x, x.y, x[0], x(), x+"a", !x, &x)
	x.f, x[n], *x = 1, 2, 3
	for i := range x {
		use(i + "a")
		n = i
	}
	for n = range x {
	}
	switch x {
	case 1, "a", x:
	}
	switch n {
	case x, 1:
	case "a":               // ERROR 7:E33
	}
	if x {
	}
	for x {
	}
	x <- 1
	go x()
	defer x(1, "a")
	y := x
	n = y
	var z = x               // ERROR 6:E6
	z = "a"
	func() { x() }()
}

func variables() {
	bad = 1
	n = bad
	bad++
	good.x = 1
	n = gives()
	use(gives() + 1)
	a, b := bad()
	use(a, b)
}

func told() {
	x := undefined          // ERROR 7:E3
	n, s = x, 1             // ERROR 12:E32
	n, s = undefined2, 1    // ERROR 9:E3 21:E32
	n = undefined3 + (1 + "a") // ERROR 6:E3 20:E33
	use([]int{x, "a"})      // ERROR 15:E32
	return undefined4       // ERROR 2:E87 9:E3
}

func results() (int, string) {
	if n > 0 {
		return undefined, 1 // ERROR 10:E3 21:E32
	}
	if n > 1 {
		return undefined, 1, 2 // ERROR 3:E87 10:E3
	}
	return undefined()      // ERROR 9:E3
}

func signature(x undefined, y int) (z undefined) { // ERROR 18:E3 39:E3
	x = y
	y = x
	z = "a"
	y = "a"                 // ERROR 6:E32
	if n > 0 {
		return 1
	}
	return
}

func clauses() {
	switch x := any.(type) {
	case undefined:         // ERROR 7:E3
		use(x + 1)
		n = x
	case undefined, int:    // ERROR 7:E3
		use(x)
	}
	select {
	case x := <-undefined:  // ERROR 14:E3
		n = x
		s = x
	case undefined <- 1:    // ERROR 7:E3
	case n = <-bad:
	}
}

func literals() {
	f := func(x undefined) { // ERROR 14:E3
		n = x
		n = "a"             // ERROR 7:E32
	}
	f(1)
	use(f)
	g := func() int { return undefined } // ERROR 27:E3
	s = g()                 // ERROR 6:E32
}
