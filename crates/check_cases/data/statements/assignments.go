// What may stand on the left of an assignment, and how many values it needs.

package statements

type point struct{ x, y int }

type names []string

func one() int

func two() (int, string)

func three() (int, string, bool)

func none()

const size = 4

var (
	n     int
	m8    int8
	u     uint
	s     string
	b     bool
	e     error
	any   interface{}
	list  []int
	grid  [3]int
	ages  map[string]int
	spots map[string]point
	where point
	to    *point
	f     func()
	ch    chan int
	send  chan<- int
	recv  <-chan int
	ns    names
)

func left() {
	1 = 2                // ERROR 2:E72
	"a" = s              // ERROR 2:E72
	size = 5             // ERROR 2:E72
	nil = nil            // ERROR 2:E72
	int = 3              // ERROR 2:E72
	one() = 1            // ERROR 2:E72
	none() = 1           // ERROR 2:E72
	n + 1 = 2            // ERROR 2:E72
	-n = 2               // ERROR 2:E72
	&n = nil             // ERROR 2:E72
	s[0] = 'a'           // ERROR 2:E72
	"abc"[0] = 'a'       // ERROR 2:E72
	spots["a"].x = 1     // ERROR 2:E72
	point{1, 2}.x = 3    // ERROR 2:E72
	one = nil            // ERROR 2:E72
	int(n) = 1           // ERROR 2:E72
	(size) = 5           // ERROR 2:E72
	true = false         // ERROR 2:E72
	[3]int{}[0] = 1      // ERROR 2:E72
	<-ch = 1             // ERROR 2:E72
	any.(int) = 1        // ERROR 2:E72
	n, one() = 1, 2      // ERROR 5:E72
	(n) = 1
	(_) = 1
	_ = n
	*to = where
	to.x, where.y = 1, 2
	list[0], grid[1], ages["a"] = 1, 2, 3
	[]int{1}[0] = 2
	(*to).y = 1
}

func values() {
	n = "a"              // ERROR 6:E32
	s = 1                // ERROR 6:E32
	b = 1                // ERROR 6:E32
	m8 = n               // ERROR 7:E32
	m8 = 128             // ERROR 7:E32
	u = -1               // ERROR 6:E32
	e = n                // ERROR 6:E32
	n = nil              // ERROR 6:E32
	f = one              // ERROR 6:E32
	send = recv          // ERROR 9:E32
	recv = send          // ERROR 9:E32
	list = grid          // ERROR 9:E32
	n, s = "a", "b"      // ERROR 9:E32
	n, s = 1, 2          // ERROR 12:E32
	n, s = "a", 2        // ERROR 9:E32 14:E32
	_ = nil              // ERROR 6:E26
	_, n = nil, 1        // ERROR 9:E26
	_ = 1 << 100         // ERROR 6:E30
	_ = int              // ERROR 6:E24
	_ = none()           // ERROR 6:E24
	_ = two()            // ERROR 6:E25
	n = none()           // ERROR 6:E24
	n = two()            // ERROR 6:E25
	n = len              // ERROR 6:E24
	ages["a"] = "b"      // ERROR 14:E32
	list[0] = s          // ERROR 12:E32
	to.x = s             // ERROR 9:E32
	s, n = two()         // ERROR 9:E32
	n, n = two()         // ERROR 9:E32
	m8, s = two()        // ERROR 10:E32
	n, s, n = three()    // ERROR 12:E32
	n, n = ages["a"]     // ERROR 9:E32
	s, b = ages["a"]     // ERROR 9:E32
	n, s = <-ch          // ERROR 9:E32
	s, b = any.(int)     // ERROR 9:E32
	any, any = ages["a"]
	_, any = any.(string)
	n, _ = two()
	_, _ = two()
	ns = []string{"a"}
	any, e = n, nil
	send, recv = ch, ch
	f = nil
}

func counts() {
	n, s = 1             // ERROR 2:E73
	n = 1, 2             // ERROR 2:E73
	n, s = 1, "a", b     // ERROR 2:E73
	n, s, b = two()      // ERROR 2:E73
	n, s = three()       // ERROR 2:E73
	n, s = one()         // ERROR 2:E73
	n, s = none()        // ERROR 2:E73
	n, s, b = ages["a"]  // ERROR 2:E73
	n, b = list[0]       // ERROR 2:E73
	n, b = n             // ERROR 2:E73
	n, b = (n + 1)       // ERROR 2:E73
	_, _ = 1             // ERROR 2:E73
	n, s = two(), 1      // ERROR 9:E25 16:E32
	n, s = two(), two()  // ERROR 9:E25 16:E25
	n, b = (ages["a"])
	n, b = (<-ch)
	n, s = (two())
}

func blanks() {
	n = _                // ERROR 6:E17
	_ += 1               // ERROR 2:E17
	_++                  // ERROR 2:E17
	n = _ + 1            // ERROR 6:E17
	list[_] = 1          // ERROR 7:E17
	_[0] = 1             // ERROR 2:E17
	_.x = 1              // ERROR 2:E17
	_ = _                // ERROR 6:E17
}
