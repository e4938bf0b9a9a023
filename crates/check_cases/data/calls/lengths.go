// Where lengths and capacities are constants.

package calls8

func f() int
func g() [3]int
func pg() *[3]int

const text = "abcd"

type box struct{ a [5]int }

var (
	n     int
	s     string
	three [3]int
	p3    *[3]int
	bx    box
	nums  []int
	ch    chan [3]int
)

const (
	a1 = len(text)
	a2 = len("abc" + text)
	a3 = len(s)               // ERROR 7:E97
	a4 = len(three)
	a5 = cap(three)
	a6 = len(p3)
	a7 = cap(p3)
	a8 = len(nums)            // ERROR 7:E97
	a9 = len(g())             // ERROR 7:E97
	b1 = len(pg())            // ERROR 7:E97
	b2 = len([2]int{1, 2})
	b3 = len([2]int{f(), 2})  // ERROR 7:E97
	b4 = len([2]int{int(n), 2})
	b5 = len([2]int{len(three), 2})
	b6 = len([2]int{len(nums), 2}) // ERROR 7:E97
	b7 = len(<-ch)            // ERROR 7:E97
	b9 = len([3]int{int(f()), 2}) // ERROR 7:E97
	c1 = len([1][2]int{}[0])
	c2 = len(string(text))
	c3 = len([]byte(text))    // ERROR 7:E97
	c4 = len(bx.a)
	c5 = len([3]chan int{nil, (chan int)(nil)})
	c6 int8 = len(three)      // ERROR 12:E32
	c7 = len(three) << 62     // ERROR 7:E30
	c8 = 1 / (len(three) - 3) // ERROR 7:E31
)

var d1 [len(three)]int
var d2 [len(nums)]int // ERROR 8:E11
var d3 int8 = len(three) // ERROR 15:E32
