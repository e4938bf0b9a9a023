// Arguments for a parameter `...T`.

package calls2

type texts []string

func greet(prefix string, who ...string) int
func sum(...int) int
func print1(...interface{}) int
func exact(string, []string) int

var (
	names  []string
	lines  texts
	counts []int
	count  int
	things []interface{}
)

var (
	a1 = greet("a")
	a2 = greet("a", "b", "c")
	a3 = greet("a", names...)
	a4 = greet("a", lines...)
	a5 = greet("a", names)        // ERROR 18:E32
	a6 = greet("a", "b", names...) // ERROR 7:E51 18:E32
	a7 = greet(names...)          // ERROR 7:E51 13:E32
	a8 = greet()                  // ERROR 7:E51
	a9 = greet("a", 1)            // ERROR 18:E32
	b1 = greet("a", "b", 2, "c", 3) // ERROR 23:E32 31:E32
	b2 = greet("a", counts...)    // ERROR 18:E32
	b3 = greet("a", nil...)
	b4 = greet("a", nil)          // ERROR 18:E32
	b5 = sum()
	b6 = sum(1, 2, 3, 4, 5)
	b7 = sum(counts...)
	b8 = sum(counts)              // ERROR 11:E32
	b9 = sum(1, "a")              // ERROR 14:E32
	c1 = sum(1 << 64)             // ERROR 11:E32
	c2 = print1(1, "a", nil, count)
	c3 = print1(names...)         // ERROR 14:E32
	c4 = print1(things...)
	c5 = print1(names)
	c6 = exact("a", names)
	c7 = exact("a", names...)     // ERROR 7:E52
	c8 = exact("a", "b")          // ERROR 18:E32
	c9 = int8(count...)           // ERROR 7:E52
	d1 = len(names...)            // ERROR 7:E52
	d2 = cap(names...)            // ERROR 7:E52
)
