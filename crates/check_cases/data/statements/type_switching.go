// Type switches.

package statements

type shape interface{ Area() int }

type square int

func (s square) Area() int { return int(s * s) }

type circle int

func (c *circle) Area() int { return int(*c) }

var (
	n   int
	any interface{}
	sh  shape
	err error
)

func two() (interface{}, int)

func use(...interface{})

func guards() {
	switch n.(type) {    // ERROR 2:E46
	}
	switch "a".(type) {  // ERROR 2:E46
	}
	switch nil.(type) {  // ERROR 9:E26
	}
	switch two().(type) { // ERROR 9:E25
	}
	switch int.(type) {  // ERROR 9:E24
	}
	switch undefined.(type) { // ERROR 9:E3
	case int, string:
	}
	switch x := n.(type) { // ERROR 2:E46
	case int:
		use(x)
	}
	switch _ := any.(type) { // ERROR 2:E8
	}
	switch any.(type) {
	}
}

func types() {
	switch any.(type) {
	case n:              // ERROR 7:E10
	case undefined:      // ERROR 7:E3
	case int, n:         // ERROR 12:E10
	case nil, string:
	}
	switch x := any.(type) {
	case (nil):
		use(x)
	case (int), (n):     // ERROR 15:E10
	}
	switch sh.(type) {
	case int:            // ERROR 7:E47
	case circle:         // ERROR 7:E47
	case string, square: // ERROR 7:E47
	case *circle, error:
	case nil:
	}
	switch err.(type) {
	case square:         // ERROR 7:E47
	case shape, interface{}:
	}
}

func duplicates() {
	switch any.(type) {
	case int:
	case string, int:    // ERROR 15:E81
	case nil:
	case nil:            // ERROR 7:E81
	case (nil):          // ERROR 7:E81
	case []int, struct{ a int }:
	case []int:          // ERROR 7:E81
	case struct{ a int }: // ERROR 7:E81
	case byte, uint8:    // ERROR 13:E81
	case square, circle:
	}
	switch any.(type) {
	default:
	case int:
	default:             // ERROR 2:E85
	}
}

func variables() {
	switch x := any.(type) {
	case int:
		var a string = x // ERROR 18:E32
		use(a)
	case string:
		var a string = x
		use(a)
	case bool, error:
		var a bool = x   // ERROR 16:E32
		use(a)
	case nil:
		var a int = x    // ERROR 15:E32
		use(a)
	default:
		var a int = x    // ERROR 15:E32
		use(a)
	}
	switch x := sh.(type) {
	case square:
		use(x.Area(), x+1)
	case *circle:
		use(x + 1)       // ERROR 7:E33
	case nil:
		use(x.Area())
	}
	switch x := any; y := x.(type) {
	case undefined:      // ERROR 7:E3
		use(y)
	default:
		y = 1
		x = y
		use(y.(int))
	}
}
