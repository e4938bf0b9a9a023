// Return statements.

package statements

type key string

func one() int

func two() (int, string)

func both() (string, int)

func none()

func nothing() {
	return 1             // ERROR 2:E87
}

func nothingMore() {
	return none()        // ERROR 2:E87 9:E24
}

func number() int {
	return "a"           // ERROR 9:E32
}

func bare() int {
	return               // ERROR 2:E87
}

func more() int {
	return 1, 2          // ERROR 2:E87
}

func fewer() (int, string) {
	return 1             // ERROR 2:E87
}

func passed() (int, string) {
	return two()
}

func passedAround() (int, string) {
	return (two())
}

func exchanged() (int, string) {
	return both()        // ERROR 9:E32
}

func single() (int, string) {
	return one()         // ERROR 2:E87
}

func several() int {
	return two()         // ERROR 9:E25
}

func without() int {
	return none()        // ERROR 9:E24
}

func withoutMany() (int, string) {
	return none()        // ERROR 2:E87
}

func three() (int, string, bool) {
	return two()         // ERROR 2:E87
}

func mixed() (int, string) {
	return two(), "a"    // ERROR 9:E25
}

func named() (n int, s string) {
	return
}

func namedValues() (n int, s string) {
	return "a", s        // ERROR 9:E32
}

func namedFew() (n int, s string) {
	return 1             // ERROR 2:E87
}

func values() (int8, error, []int) {
	return 300, nil, nil // ERROR 9:E32
}

func second() (int, error) {
	return 1, 2          // ERROR 12:E32
}

func table(m map[string]int) (int, bool) {
	return m["a"]        // ERROR 2:E87
}

func types() int {
	return int           // ERROR 9:E24
}

func empty() interface{} {
	return nil
}

func untyped() key {
	return "a"
}

func typed(s string) key {
	return s             // ERROR 9:E32
}

func shifted(n uint) int8 {
	return 1 << n
}

func unknown() int {
	return undefined     // ERROR 9:E3
}

func outer() int {
	f := func() string {
		return 1         // ERROR 10:E32
	}
	g := func() {
		return f()       // ERROR 3:E87
	}
	h := func() (int, string) {
		return           // ERROR 3:E87
	}
	i := func() (int, string) { return both() } // ERROR 37:E32
	g()
	h()
	i()
	return f()           // ERROR 9:E32
}

type T int

func (t T) method() (x, y T) {
	if t > 0 {
		return t         // ERROR 3:E87
	}
	if t < 0 {
		return t, "a"    // ERROR 13:E32
	}
	return
}
