// Variables that are never used.

package bodies

var (
	any interface{}
	m   map[string]int
	ch  chan int
	arr []int
)

type point struct{ x int }

func two() (int, int)

func use(...interface{})

func plain(p int) (r int) {
	var a int            // ERROR 6:E6
	var b = 1            // ERROR 6:E6
	c := 1               // ERROR 2:E6
	var d, e int         // ERROR 6:E6 9:E6
	var _ int
	use()
	return
}

func assigned() {
	a := 1               // ERROR 2:E6
	a = 2
	var b int            // ERROR 6:E6
	b, _ = two()
	c, d := two()        // ERROR 2:E6
	c, e := two()        // ERROR 5:E6
	(c) = 1
	use(d)
	var f int
	f += 1
	var g int
	g++
	var h []int
	h[0] = 1
	var p point
	p.x = 1
	var q *int
	*q = 1
}

func ranges() {
	var a, b int         // ERROR 6:E6 9:E6
	for a, b = range arr {
	}
	for i := range arr { // ERROR 6:E6
	}
	for i, v := range arr { // ERROR 9:E6
		use(i)
	}
	for _, v := range arr { // ERROR 9:E6
	}
}

func nested() {
	a := 1
	func() {
		use(a)
	}()
	b := 1               // ERROR 2:E6
	func() {
		b = 2
	}()
	func(c int) {
		d := 1           // ERROR 3:E6
	}(1)
	e := func() {}       // ERROR 2:E6
}

func shadowed() {
	a := 1               // ERROR 2:E6
	{
		a := 2
		use(a)
	}
	b := 1
	{
		b := b           // ERROR 3:E6
	}
	if c := 1; true {    // ERROR 5:E6
	}
	switch d := 1; {     // ERROR 9:E6
	}
	for e := 1; ; {      // ERROR 6:E6
	}
}

func switches() {
	switch x := any.(type) { // ERROR 9:E6
	}
	switch x := any.(type) { // ERROR 9:E6
	case int:
	default:
	}
	switch x := any.(type) {
	case int:
	default:
		use(x)
	}
	switch x := any.(type) { // ERROR 9:E6
	case int:
		x = 1
	}
	switch x := any; x.(type) {
	}
}

func selects() {
	select {
	case x := <-ch:      // ERROR 7:E6
	case x, ok := <-ch:  // ERROR 10:E6
		use(x)
	}
	v, ok := m["a"]      // ERROR 5:E6
	use(v)
}

func quiet() {
	const c = 1
	type t int
}
