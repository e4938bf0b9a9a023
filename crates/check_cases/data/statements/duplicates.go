// Duplicate cases of switches: what is the same, however it is spelled.

package statements

type number int

type key string

type shape interface{ area() int }

type square int

func (square) area() int { return 1 }

type alias = square

const (
	one       = 1
	typed int = 1
	letter    = 'a'
	text      = "ab"
	low       = -1
)

var (
	n   int
	m8  int8
	u8  uint8
	r   rune
	s   string
	b   bool
	num number
	k   key
	any interface{}
	sh  shape
	p   *int
	st  struct{ x int }
)

func call() int

func integers() {
	switch n {
	case 1:
	case one:               // ERROR 7:E81
	case typed:             // ERROR 7:E81
	case 0x1, 0b1, 0o1, 01, 0_1: // ERROR 7:E81 12:E81 17:E81 22:E81 26:E81
	case (1), +1, 2 - 1, 1 << 0: // ERROR 7:E81 12:E81 16:E81 23:E81
	case int(1):            // ERROR 7:E81
	case len("a"):          // ERROR 7:E81
	case -1:
	case low, ^0:           // ERROR 7:E81 12:E81
	case 97, 'a', letter, '\x61', '\141': // ERROR 11:E81 16:E81 24:E81 32:E81
	case n, n, call(), call():
	}
	switch m8 {
	case 127:
	case 0x7f, int8(127):   // ERROR 7:E81 13:E81
	case -128, -1 << 7:     // ERROR 13:E81
	}
	switch u8 {
	case 255, ^uint8(0):    // ERROR 12:E81
	}
	switch r {
	case 'a':
	case 97:                // ERROR 7:E81
	}
	switch num {
	case 1:
	case number(1):         // ERROR 7:E81
	case 2, 3, 2, 3, 2:     // ERROR 13:E81 16:E81 19:E81
	}
	switch 1 {
	case 1:
	case 1:                 // ERROR 7:E81
	}
	switch call() {
	case 5 / 2:
	case 7 % 5:             // ERROR 7:E81
	case 7 &^ 5:            // ERROR 7:E81
	case 6 & 2:             // ERROR 7:E81
	}
	switch n {
	case 1:
		switch n {
		case 1:
		}
	}
	switch n {
	case 1:
	}
	switch n {
	case 1, 2:
	default:
	case 3, 1:              // ERROR 10:E81
	}
}

func texts() {
	switch s {
	case "ab":
	case `ab`:              // ERROR 7:E81
	case "a" + "b", text, "\x61b", "\u0061\142": // ERROR 7:E81 18:E81 24:E81 33:E81
	case "", ``:            // ERROR 11:E81
	case "a", "A", "a ":
	case s, s:
	}
	switch k {
	case "a":
	case key("a"):          // ERROR 7:E81
	case k + "a", k + "a":
	}
}

func booleans() {
	switch b {
	case true, true, false, false:
	case b, b:
	}
	switch {
	case true, true:
	case n == 1, n == 1:
	}
}

func interfaces() {
	switch any {
	case 1, int8(1), number(1), 'a', "a", key("a"):
	case 1, int8(1), number(1): // ERROR 7:E81 10:E81 19:E81
	case 'a', "a", key("a"): // ERROR 7:E81 12:E81 17:E81
	case 97, uint8(97):
	case nil, nil:
	case true, true:
	case p, p, st, st:
	}
	switch sh {
	case square(1):
	case square(1), alias(1): // ERROR 7:E81 18:E81
	case square(2):
	}
}

func others() {
	switch p {
	case nil, nil:
	}
	switch st {
	case struct{ x int }{1}, struct{ x int }{1}:
	}
}

func types() {
	switch any.(type) {
	case int, string, number:
	case int:               // ERROR 7:E81
	case string, (int):     // ERROR 7:E81 15:E81
	case int32, rune:       // ERROR 14:E81
	case byte, uint8:       // ERROR 13:E81
	case square, alias:     // ERROR 15:E81
	case *int, *int, **int: // ERROR 13:E81
	case []int, []int, [1]int, [2]int, [one]int: // ERROR 14:E81 37:E81
	case map[string]int, map[int]string, map[string]int: // ERROR 39:E81
	case chan int, <-chan int, chan<- int, (<-chan int): // ERROR 41:E81
	case func(a int) string, func(b int) string, func(int) string, func(...int) string: // ERROR 27:E81 47:E81
	case func(x int) (y string), func() []int: // ERROR 7:E81
	case struct{ a, b int }, struct { // ERROR 27:E81
		a int
		b int
	}, struct{ b, a int }, struct {
		a, b int "tag"
	}:
	case interface{}, interface{}, error, interface{ Error() string }: // ERROR 20:E81
	case shape, interface{ area() int }:
	case nil:
	case nil, (nil):        // ERROR 7:E81 12:E81
	default:
	}
	switch sh := sh.(type) {
	case square:
	case *square, square:   // ERROR 16:E81
		_ = sh
	case interface{}, interface{}: // ERROR 20:E81
	}
	switch any.(type) {
	case int:
		switch any.(type) {
		case int:
		}
	}
}
