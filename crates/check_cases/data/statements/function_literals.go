// Function literals: a value of the type that their signature has.

package statements

type op func(int) int

type shape interface{ Area() int }

var (
	n   int
	s   string
	any interface{}
)

func use(...interface{})

func apply(f func(int) int, n int) int

func many() (int, string)

var square = func(n int) int { return n * n }

var typed func(int) string = func(n int) int { return n } // ERROR 30:E32

var named op = func(n int) int { return n }

var called = func() (int, string) { return many() }

var first, second = func() (int, string) { return 1, "a" }()

var one int = func() string { return "a" }() // ERROR 15:E32

const c = func() int { return 1 } // ERROR 11:E97

var size [func() int { return 1 }()]int // ERROR 10:E11

func signatures() {
	_ = func(x undefined) {}       // ERROR 13:E3
	_ = func(x n) {}               // ERROR 13:E10
	_ = func() n { return 1 }      // ERROR 13:E10
	_ = func(x int, x string) {}   // ERROR 18:E1
	_ = func(x int) (x int) { return } // ERROR 19:E1
	_ = func(x, y int, _ string, _ bool) int { return x + y }
	_ = func(xs ...int) int { return xs[0] + len(xs) }
}

func calls() {
	func() {}()
	func(x int) {}("a")            // ERROR 17:E32
	func(x int) {}()               // ERROR 2:E51
	func(x int) {}(1, 2)           // ERROR 2:E51
	use(func() int { return 1 }() + "a") // ERROR 6:E33
	n = apply(func(n int) int { return n + 1 }, 2)
	n = apply(func(s string) int { return len(s) }, 2) // ERROR 12:E32
	n = apply(func(int) int { return "a" }, 2) // ERROR 35:E32
	go func() {}()
	defer func(x int) {}(1)
	func() {}                      // ERROR 2:E70
}

func bodies() {
	f := func(x int) string {
		x = "a"                // ERROR 7:E32
		if x {                 // ERROR 3:E76
			return x       // ERROR 11:E32
		}
		return func() string {
			return x       // ERROR 11:E32
		}()
	}
	s = f(1)
	n = f(1)                       // ERROR 6:E32
	g := func() (n int, err error) {
		n, err = 1, nil
		return
	}
	use(g)
	h := func() {
		return 1               // ERROR 3:E87
	}
	h()
	n = h()                        // ERROR 6:E24
	k := func(x int) int {
		return                 // ERROR 3:E87
	}
	use(k)
	f = nil
	f = g                          // ERROR 6:E32
}

func operators() {
	f := func() {}
	use(f == nil, nil != f)
	use(f == f)                    // ERROR 6:E35
	use(func() {} == nil)
	use(!f)                        // ERROR 6:E34
	use(f + f)                     // ERROR 6:E34
	use(f.x)                       // ERROR 6:E20
	use(f[0])                      // ERROR 6:E41
	use(any.(func()) == nil)
	any = func() {}
	use(op(func(n int) int { return n }))
	use(op(func(n string) int { return 1 })) // ERROR 6:E53
	var sh shape = func() int { return 1 } // ERROR 17:E32
	use(sh)
}

func inside() {
	switch x := any.(type) {
	case int:
		use(func() int { return x })
		use(func() string { return x }) // ERROR 30:E32
	case string:
		use(func() string { return x })
		f := func(x int) int { return x }
		use(f, func() int { return x }) // ERROR 30:E32
	}
	for i, v := range []string{"a"} {
		use(func() int { return i }, func() string { return v })
		use(func() string { return i }) // ERROR 30:E32
	}
	list := []func(int) int{
		func(n int) int { return n },
		func(n int) string { return "a" }, // ERROR 3:E32
		square,
		nil,
	}
	use(list[0](1), map[string]func(){"a": func() {}})
}
