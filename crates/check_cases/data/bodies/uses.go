// What is a use of a variable, and what isn't.

package bodies

type point struct{ x, y int }

type line struct {
	from point
	to   *point
}

type number int

func (n number) twice() number { return n * 2 }

var (
	any  interface{}
	list []int
	ages map[string]int
	ints chan int
	ok   bool
)

func one() int

func two() (int, error)

func use(...interface{})

func keys() {
	x := 1                  // ERROR 2:E6
	use(point{x: 1})
	y, z := 1, 2            // ERROR 5:E6
	use(point{y: y})
	{
		y := 1              // ERROR 3:E6
		use([]point{{y: 1}}, []*point{{y: 2}}, map[string]point{"a": {y: 3}})
	}
	{
		from, to := 1, 2    // ERROR 3:E6
		use(line{from: point{to, 1}})
	}
	{
		x := "a"
		use(map[string]int{x: 1})
	}
	{
		x := 1
		use(map[point]int{{x, 2}: 1})
	}
	{
		x := 1              // ERROR 3:E6
		use(map[point]int{{x: 2}: 1})
	}
	{
		type local struct{ x int }
		x := 1              // ERROR 3:E6
		use(local{x: 1})
	}
	{
		type local = map[string]int
		x := "a"
		use(local{x: 1})
	}
	{
		x := 1
		use(point{x: x})
	}
}

func selected() {
	x := 1                  // ERROR 2:E6
	var p point
	use(p.x)
	twice := 2              // ERROR 2:E6
	use(number(1).twice(), number.twice)
	var q point
	q.x = 1
	var r [2]int
	r[0] = 1
	var s *point
	s.x = 1
	var t *int
	*t = 2
	i := 0
	list[i] = 1
	k := "a"
	ages[k] = 1
	v := 1                  // ERROR 2:E6
	(v) = 2
	w := 1                  // ERROR 2:E6
	((w)) = 2
}

func operated() {
	a := 1
	a++
	b := 1
	b += 2
	c := 1
	c = c + 1
	d := 1
	d--
	e, f := 1, 2
	e, f = f, e
	g := 1
	_ = g
	h := 1
	use(&h)
	i := 1                  // ERROR 2:E6
	i, j := 2, 3
	_ = j
	k := 1                  // ERROR 2:E6
	k, err := two()
	if err != nil {
		return
	}
}

func closures() {
	a := 1
	func() { use(a) }()
	b := 1                  // ERROR 2:E6
	func() { b = 2 }()
	c := 1                  // ERROR 2:E6
	defer func() {
		c = one()
	}()
	var d func(int) int
	d = func(n int) int { return d(n - 1) }
	e := func() {}
	go e()
	f := func() int {       // ERROR 2:E6
		g := 1              // ERROR 3:E6
		return 2
	}
	func(h int) (i int) { return 1 }(1)
	j := 1
	func() {
		j := j              // ERROR 3:E6
	}()
}

func headers() {
	if a := one(); ok {     // ERROR 5:E6
	}
	if a := one(); a > 1 {
	} else if b := a; ok {  // ERROR 12:E6
	}
	if a := one(); ok {
	} else {
		use(a)
	}
	switch a := one(); ok { // ERROR 9:E6
	}
	switch a := one(); {
	case a > 1:
	}
	switch a := any; any.(type) { // ERROR 9:E6
	}
	switch a := any.(type) { // ERROR 9:E6
	case int, string:
	case nil:
		{
			a := 1
			use(a)
		}
	}
	switch a := any.(type) {
	case int:
		use(func() int { return a })
	}
	switch a := any.(type) { // ERROR 9:E6
	default:
		a = 1
	}
	for a := 0; ok; {       // ERROR 6:E6
	}
	for a := 0; a < 1; {
	}
	for a := 0; ; a++ {
	}
	for a, b := 0, 1; ; a = b { // ERROR 6:E6
	}
	for a := range list {   // ERROR 6:E6
	}
	for a := range ages {   // ERROR 6:E6
		a = "b"
	}
	for _, a := range list {
		use(a)
	}
	for a, b := range ages { // ERROR 6:E6 9:E6
	}
	for a := range ints {   // ERROR 6:E6
	}
	var c, d int            // ERROR 9:E6
	for list[c], d = range list {
	}
	select {
	case a := <-ints:       // ERROR 7:E6
	case a, ok := <-ints:
		use(a, ok)
	case a, b := <-ints:    // ERROR 7:E6 10:E6
	default:
		a := 1              // ERROR 3:E6
	}
}

func declared() {
	var a, b = 1, 2         // ERROR 6:E6 9:E6
	var (
		c int               // ERROR 3:E6
		d int = one()
		e = d               // ERROR 3:E6
	)
	var _, f = two()        // ERROR 9:E6
	const g = 1
	type h int
	var i h                 // ERROR 6:E6
	var j [g]int
	use(len(j))
	use()
	func(k int) {}(1)
	var l []struct{ d int } // ERROR 6:E6
	var m func(n int) (o int) // ERROR 6:E6
}

func parameters(a int, b ...string) (c int, d error) {
	a = 1
	c = 2
	{
		a := a              // ERROR 3:E6
		c := 1              // ERROR 3:E6
		var d = d           // ERROR 7:E6
	}
	return
}

func (n number) method() {
	n = 1
}

func labels() {
	L := 1                  // ERROR 2:E6
L:
	for {
		break L
	}
}

func shadows() {
	x := 1
	{
		x := x              // ERROR 3:E6
		{
			x := 2
			use(x)
		}
	}
	y := 1                  // ERROR 2:E6
	{
		y := 2
		use(y)
	}
	z := 1
	if z := z; z > 0 {
		z := z              // ERROR 3:E6
	}
}
