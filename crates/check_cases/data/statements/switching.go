// Expression switches.

package statements

type key string

type flag bool

var (
	n    int
	m8   int8
	u    uint
	s    string
	b    bool
	k    key
	fl   flag
	any  interface{}
	err  error
	list []int
	ages map[string]int
	f    func()
	p    *int
	st   struct{ a []int }
)

func one() int

func two() (int, int)

func none()

func compared() {
	switch n {
	case "a":            // ERROR 7:E33
	case s:              // ERROR 7:E33
	case m8:             // ERROR 7:E33
	case nil:            // ERROR 7:E33
	case true:           // ERROR 7:E33
	case 1 << 70:        // ERROR 7:E33
	case int:            // ERROR 7:E24
	case none():         // ERROR 7:E24
	case two():          // ERROR 7:E25
	case undefined:      // ERROR 7:E3
	case 1, "b", 2:      // ERROR 10:E33
	case 'c', one(), n + 1:
	}
	switch s {
	case 1:              // ERROR 7:E33
	case k:              // ERROR 7:E33
	case "a":
	}
	switch {
	case 1:              // ERROR 7:E33
	case n:              // ERROR 7:E33
	case fl:             // ERROR 7:E33
	case b, n == 1:
	}
	switch m8 {
	case 128:            // ERROR 7:E33
	case 127:
	}
	switch any {
	case list:           // ERROR 7:E35
	case f:              // ERROR 7:E35
	case 1 << 70:        // ERROR 7:E30
	case 1, "a", nil, p, err:
	}
	switch err {
	case n:              // ERROR 7:E33
	case nil, any:
	}
	switch list {
	case list:           // ERROR 7:E35
	case nil:
	}
	switch 5 {
	case m8:             // ERROR 7:E33
	case n, 5:
	}
	switch x := one(); x {
	case "a":            // ERROR 7:E33
	}
	switch x := one(); {
	case x:              // ERROR 7:E33
	case x > 1:
	}
	switch fl {
	case b:              // ERROR 7:E33
	case true, n == 1:
	}
	switch p {
	case nil:
	case &n:
	case 0:              // ERROR 7:E33
	}
}

func tags() {
	switch nil {         // ERROR 9:E26
	}
	switch two() {       // ERROR 9:E25
	}
	switch none() {      // ERROR 9:E24
	}
	switch int {         // ERROR 9:E24
	}
	switch undefined {   // ERROR 9:E3
	case 1, "a":
	}
	switch len {         // ERROR 9:E24
	}
}

func duplicates() {
	switch n {
	case 1:
	case 2, 1:           // ERROR 10:E81
	case 0x1:            // ERROR 7:E81
	case 'a', 97:        // ERROR 12:E81
	case 3 - 2:          // ERROR 7:E81
	}
	switch s {
	case "ab", "c":
	case "a" + "b":      // ERROR 7:E81
	case `c`:            // ERROR 7:E81
	}
	switch any {
	case 1, int8(1), "1":
	case 2 - 1:          // ERROR 7:E81
	case int8(1):        // ERROR 7:E81
	}
	switch n {
	case one(), one():
	}
	switch {
	case true:
	case b, b:
	}
}

func defaults() {
	switch n {
	default:
	case 1:
	default:             // ERROR 2:E85
	}
	switch {
	default:
	default:             // ERROR 2:E85
	default:             // ERROR 2:E85
	}
	select {
	default:
	default:             // ERROR 2:E85
	}
}
