// Calls of functions: what is called, how many arguments, and of which types.

package calls

type number int

type pair struct{ a, b int }

type doer func(int, string) bool

func none()
func one(int) string
func two(a int, b string) bool
func any(interface{}) int
func stringer(interface{ String() string }) int
func pointer(*pair) *int
func sends(chan<- int) int

var (
	act  doer
	list []func(int) int
	n    int
	m    number
	u8   uint8
	ok   bool
	both chan int
	in   <-chan int
)

var (
	a1 = one(1)
	a2 = one("a")          // ERROR 11:E32
	a3 = one()             // ERROR 7:E51
	a4 = one(1, 2)         // ERROR 7:E51
	a5 = two(1, "b")
	a6 = two("a", 2)       // ERROR 11:E32 16:E32
	a7 = two(1)            // ERROR 7:E51
	a8 = none()            // ERROR 7:E24
	a9 = act(n, "a")
	b1 = act("a", "b")     // ERROR 11:E32
	b2 bool = two(n, "s")
	b3 int = two(n, "s")   // ERROR 11:E32
	b4 = n(1)              // ERROR 7:E50
	b5 = "f"(1)            // ERROR 7:E50
	b6 = nil(1)            // ERROR 7:E50
	b7 = one(m)            // ERROR 11:E32
	b8 = one(u8)           // ERROR 11:E32
	b9 = one(number(1))    // ERROR 11:E32
	c1 = any(nil)
	c2 = any(n)
	c3 = any("a")
	c4 = any(1 << 62)
	c5 = any(1 << 63)      // ERROR 11:E30
	c6 = any(n < 2)
	c7 = pointer(nil)
	c8 = pointer(n)        // ERROR 15:E32
	c9 = stringer(n)       // ERROR 16:E32
	d1 = stringer(nil)
	d2 = sends(both)
	d3 = sends(in)         // ERROR 13:E32
	d4 = one(int)          // ERROR 11:E24
	d5 = one(len)          // ERROR 11:E24
	d6 = one(none())       // ERROR 7:E51
	d7 = any(none())       // ERROR 7:E51
	d8 = two(none(), "a")  // ERROR 11:E24
	d9 = one(undefined)    // ERROR 11:E3
	e1 = undefined(1)      // ERROR 7:E3
	e2 = undefined(nil, int) // ERROR 7:E3
	e3 = none()()          // ERROR 7:E24
	e4 = one(1)(2)         // ERROR 7:E50
	e5 = (one)(1)
	e6 = (one)("a")        // ERROR 13:E32
	e7 = one((1))
	e8 = one(1 + "a")      // ERROR 11:E33
	e9 = one(1.0)          // ERROR 11:outside-float
)

var e0 = one(ok) // ERROR 14:E32
