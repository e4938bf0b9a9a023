// Making slices, maps and channels.

package calls7

type list []int

type table map[string]int

type queue chan int

type whole int

var (
	n   int
	s   string
	u64 uint64
	w   whole
	b   bool
)

var (
	a1 = make([]int, 1)
	a2 = make([]int, 1, 2)
	a3 = make([]int, 2, 1)      // ERROR 7:E55
	a4 = make([]int)            // ERROR 7:E55
	a5 = make([]int, -1)        // ERROR 7:E55
	a6 = make([]int, n, n)
	a7 = make([]int, u64)
	a8 = make([]int, w)
	a9 = make([]int, s)         // ERROR 7:E55
	b1 = make([]int, "a")       // ERROR 7:E55
	b2 = make([]int, 1 << 63)   // ERROR 7:E55
	b3 = make([]int, uint64(1) << 63) // ERROR 7:E55
	b4 = make([]int, 'a')
	b5 = make([]int, nil)       // ERROR 19:E26
	b6 = make([]int, 1, 2, 3)   // ERROR 7:E51
	b7 = make(map[string]int)
	b8 = make(map[string]int, n)
	b9 = make(map[string]int, 1, 2) // ERROR 7:E55
	c1 = make(chan int)
	c2 = make(chan int, 1)
	c3 = make(chan int, -1)     // ERROR 7:E55
	c4 = make(chan<- int)
	c5 = make(list, 1)
	c6 list = make(list, 1)
	c7 = make(table)
	c8 = make(queue, 3)
	c9 = make(int)              // ERROR 7:E55
	d1 = make([3]int, 1)        // ERROR 7:E55
	d2 = make(*[]int, 1)        // ERROR 7:E55
	d3 = make(struct{})         // ERROR 7:E55
	d4 = make()                 // ERROR 7:E51
	d5 = make(5)                // ERROR 12:E10
	d6 = make(undefined, 1)     // ERROR 12:E3
	d7 = make([]int, undefined) // ERROR 19:E3
	d8 = make([]int, int)       // ERROR 19:E24
	d9 = make([]int, 1 << u64)
	e1 = make([]int, n < 2)     // ERROR 7:E55
	e2 = make([]int, b)         // ERROR 7:E55
	e3 = make([]int, n, 0)
	e4 = make([]int, 0, n)
	e5 []string = make([]int, 1) // ERROR 16:E32
)
