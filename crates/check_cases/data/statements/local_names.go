// Names that are declared in bodies: their blocks, and what may be declared twice.

package statements

type point struct{ x, y int }

var (
	any  interface{}
	list []int
	ages map[string]int
	ints chan int
	n    int
)

func one() int

func two() (int, error)

func use(...interface{})

func blocks() {
	var a int
	var a string            // ERROR 6:E1 6:E6
	const b = 1
	type b int              // ERROR 7:E1
	const b = 2             // ERROR 8:E1
	type c int
	var c int               // ERROR 6:E1 6:E6
	use(a, b, c(1))
	{
		var a string
		const c = "c"
		type b int
		use(a, c, b(1))
	}
	var d, e, d int         // ERROR 12:E1 12:E6
	var _, _ int
	const _, _ = 1, 2
	type _ int
	type _ string
	use(d, e)
	if a := 1; a > 0 {
		a := "a"
		use(a)
	} else {
		a := "b"
		use(a)
	}
	for a := 0; a < 1; a++ {
		a := "a"
		use(a)
	}
	for a := range list {
		use(a)
		a := "a"
		use(a)
	}
	switch a := 1; a {
	case 1:
		a := "a"
		use(a)
	default:
		a := "b"
		var a int           // ERROR 7:E1 7:E6
		use(a)
	}
	select {
	case a := <-ints:
		a := 1              // ERROR 3:E8
		use(a)
	case a, b := <-ints:
		var b int           // ERROR 7:E1 7:E6
		use(a, b)
	default:
		a := 1
		use(a)
	}
}

func order() {
	use(later)              // ERROR 6:E3
	later := 1
	use(later)
	var a int = a2          // ERROR 14:E3
	var a2 = a
	use(a2)
	f := func() int { return f() } // ERROR 27:E3
	use(f)
	var g = func() int { return g() } // ERROR 30:E3
	use(g)
	var h func() int
	h = func() int { return h() }
	b := b                  // ERROR 7:E3
	use(b)
	const c = c             // ERROR 12:E3
	use(c)
	n := n
	use(n)
	type t struct {
		next *t
		all  []t
		f    func(t) t
	}
	type u struct{ u u }    // ERROR 7:E4
	type v struct{ w *w }   // ERROR 20:E3
	type w struct{ v v }
	use(t{}, w{})
	if x := 1; x > 0 {
		use(x)
	}
	use(x)                  // ERROR 6:E3
	for i := range list {
		use(i)
	}
	use(i)                  // ERROR 6:E3
	{
		inner := 1
		use(inner)
	}
	use(inner)              // ERROR 6:E3
	func(p int) (r int) { return p }(1)
	use(p, r)               // ERROR 6:E3 9:E3
}

func parameters(p int, q string) (r bool, err error) {
	var p string            // ERROR 6:E1 6:E6
	const q = 1             // ERROR 8:E1
	type r int              // ERROR 7:E1
	_, err := two()         // ERROR 2:E8
	{
		var p string
		err := one()
		use(p, err)
	}
	func(p string) {
		var p int           // ERROR 7:E1 7:E6
		use(p)
	}("a")
	if p := "a"; p == q {
		return
	}
	use(p + 1)
	p, s := "a", 2          // ERROR 10:E32
	use(p, s)
	return
}

func (p point) method(x int) {
	p := point{}            // ERROR 2:E8
	var x int               // ERROR 6:E1 6:E6
	use(p.x, p.z)           // ERROR 11:E20
}

func constants() {
	const (
		a = iota
		b
		c uint8 = 252 + iota
		d
		e                   // ERROR 3:E32
		f = "f"
		g
	)
	const h, i = iota, iota + 10
	const (
		j int8 = 1 << (iota + 5)
		k
		l                   // ERROR 3:E32
	)
	const m = n             // ERROR 12:E97
	const o = 1, 2          // ERROR 8:E99
	const p = one()         // ERROR 12:E97
	var q [a]int
	var r [f]int            // ERROR 8:E11
	use(b, c, d, e, g, h, i, j, k, l, m, o, p, q, r, iota) // ERROR 51:E3
	const s, t = 1 << 3, len("abc")
	var u [s + t]int = [11]int{}
	var v [s]int = [11]int{} // ERROR 17:E32
	use(u, v)
}

func variables() {
	var a int = "a"         // ERROR 14:E32
	var b, c = 1            // ERROR 6:E99
	var d, e int = two()    // ERROR 17:E32
	var f, g = two()
	var h, i = ages["a"]
	var j, k = one()        // ERROR 6:E99
	var l = nil             // ERROR 10:E26
	var m = n + "a"         // ERROR 10:E33
	var a = 1               // ERROR 6:E1 6:E6
	var o, p int = 1, 2, 3  // ERROR 6:E99
	var q = two()           // ERROR 10:E25
	var r interface{ M() } = 1 // ERROR 27:E32
	use(a, b, c, d, e, f, g, h, i, j, k, l, m, o, p, q, r)
}

func types() {
	type number int
	type numbers []number
	type alias = number
	type key struct{ name string }
	var a number = 1
	var b alias = a
	var c int = b           // ERROR 14:E32
	var d numbers = []number{1, a}
	var e numbers = []int{1} // ERROR 18:E32
	var f map[key]int
	var g map[[]int]int     // ERROR 12:E12
	type shape interface{ area() number }
	var h shape = a         // ERROR 16:E32
	var i shape
	use(a, b, c, d, e, f, g, h, i.area()+1, i.area()+n) // ERROR 42:E33
	{
		type number string
		var j number = a    // ERROR 18:E32
		var k number = "a"
		use(j, k)
	}
	type embedded struct {
		number
		*key
		n int
	}
	var l embedded
	use(l.name, l.number, l.missing) // ERROR 24:E20
	type twice struct {
		n int
		n string            // ERROR 3:E14
	}
	type array [len(array{})]int // ERROR 7:E4
	type func1 func(func1) func1
}

func typeSwitches() {
	switch a := any.(type) {
	case int:
		a := 1              // ERROR 3:E8
		use(a)
	case string:
		var a int           // ERROR 7:E1 7:E6
		use(a)
	case bool:
		{
			a := 1
			use(a)
		}
		a, b := true, 2
		use(a, b)
	default:
		const a = 1         // ERROR 9:E1
		use(a)
	}
	switch a := 1; b := any.(type) {
	default:
		use(a)
		a := "a"
		use(a, b)
	}
	switch list := any.(type) {
	case []int:
		use(list[0])
	case map[string]int:
		use(list["a"], list[0]) // ERROR 23:E32
	}
}

func shadowed() {
	int := 1
	var a int               // ERROR 8:E10
	use(int, a)
	{
		type string []byte
		var b string = "a"  // ERROR 18:E32
		use(b)
	}
	true := false
	if true {
	}
	nil := 1
	var p *point = nil      // ERROR 17:E32
	use(p)
	len := func(x int8) int8 { return x }
	use(len(1), len("a"))   // ERROR 18:E32
	{
		use := 1
		use(1)              // ERROR 3:E50
	}
	var iota = 1
	const c = iota          // ERROR 12:E97
	append := 1
	use(append)
	type point = map[string]bool
	use(point{"a": true}, point{x: true}) // ERROR 30:E3
}
