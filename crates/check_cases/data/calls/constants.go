// Conversions of constants give constants.

package calls5

type number int8

type text string

const (
	a1 = int8(127)
	a2 = int8(128)            // ERROR 7:E30
	a3 = int8(200)            // ERROR 7:E30
	a4 = uint8(-1)            // ERROR 7:E30
	a5 = uint64(1 << 63)
	a6 = int(1 << 63)         // ERROR 7:E30
	a7 = number(-128)
	a8 = number(1000)         // ERROR 7:E30
	a9 = string(65)
	b1 = string('a') + "b"
	b2 = text("a")
	b3 = string(text("a"))
	b4 = int("a")             // ERROR 7:E53
	b5 = bool(1)              // ERROR 7:E53
	b6 = bool(true)
	b7 = string(true)         // ERROR 7:E53
	b8 = int8(uint8(200))     // ERROR 7:E30
	b9 = int8(uint8(100))
	c1 = []byte("a")          // ERROR 7:E97
	c2 = interface{}(1)       // ERROR 7:E97
	c3 = int8(1) << 6
	c4 = int8(1) << 7         // ERROR 7:E30
	c5 = int8(100) + 100      // ERROR 7:E30
	c6 = -int8(-128)          // ERROR 7:E30
	c7 = uint(int8(5))
	c8 uint = uint(7)
	c9 int = uint(7)          // ERROR 11:E32
	d1 = string(-1)
	d2 = string(0x110000) + "a"
	d3 = len(string(-1))
	d4 = rune('a')
	d5 = byte('a')
	d6 = byte('\u0100')       // ERROR 7:E30
	d7 = int(1 << 200)        // ERROR 11:outside-wide
	d8 = [4]int(nil)          // ERROR 7:E53
	d9 = number(int(5))
)

var (
	e1 [len("abc")]int
	e3 = interface{}(1 << 63) // ERROR 19:E30
	e4 = []byte("abc")
	e5 = []rune('a')          // ERROR 7:E53
	e6 [int8(3)]int
	e7 [int8(-3)]int          // ERROR 5:E11
)
