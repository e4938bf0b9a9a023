// Short variable declarations.

package statements

func one() int

func two() (int, string)

func none()

func fail() (int, error)

const c = 1

var ages map[string]int

func use(...interface{})

func fresh() {
	x := 1
	x := 2               // ERROR 2:E8
	use(x)
	y, err := fail()
	use(y, err)
	y, err := fail()     // ERROR 2:E8
	z, err := fail()
	use(z)
	_ := 1               // ERROR 2:E8
	_, _ := two()        // ERROR 2:E8
	_, x := 1, 2         // ERROR 2:E8
	a, a := 1, 2         // ERROR 5:E1 5:E6
	use(a)
	if x := 3; x > 0 {
		use(x)
	}
	{
		x := 4
		use(x)
	}
}

func parameters(p int, q string) (r bool) {
	p := 1               // ERROR 2:E8
	p, q := 1, "a"       // ERROR 2:E8
	p, t := 1, 2
	r := true            // ERROR 2:E8
	use(t)
	{
		p := "inner"
		use(p)
	}
	return
}

func assigned() {
	const k = 1
	type local int
	n, s := 1, "a"
	n, v := "b", 1       // ERROR 10:E32
	s, w := 1, 2         // ERROR 10:E32
	k, x := 2, 3         // ERROR 2:E72
	local, y := 2, 3     // ERROR 2:E72
	s, z := two()        // ERROR 10:E32
	use(n, s, v, w, x, y, z)
}

func values() {
	a := nil             // ERROR 7:E26
	b := int             // ERROR 7:E24
	d := none()          // ERROR 7:E24
	e := two()           // ERROR 7:E25
	f := len             // ERROR 7:E24
	g := 1 << 100        // ERROR 7:E30
	h := undefined       // ERROR 7:E3
	i, j := 1            // ERROR 2:E73
	k, l := two(), 1     // ERROR 10:E25
	m, n, o := two()     // ERROR 2:E73
	p, q := one()        // ERROR 2:E73
	r := 1, 2            // ERROR 2:E73
	t, u := c            // ERROR 2:E73
	v, ok := ages["a"]
	w, _ := ages["b"]
	use(a, b, d, e, f, g, h, i, j, k, l, m, n, o, p, q, r, t, u, v, ok, w)
}

func types() {
	n, s := two()
	ok := ages != nil
	r := 'a'
	t := "text"
	var i int = r        // ERROR 14:E32
	var b bool = n       // ERROR 15:E32
	var c rune = s       // ERROR 15:E32
	var d string = t
	var e string = ok    // ERROR 17:E32
	use(i, b, c, d, e)
}
