// What built-in functions want of their arguments.

package calls6

type texts []string

type table map[string]int

type bytes []byte

func several() (int, int)

var (
	n     int
	s     string
	b     bool
	names []string
	lines texts
	bs    []byte
	mb    bytes
	rs    []rune
	three [3]int
	p3    *[3]int
	pp3   **[3]int
	pn    *int
	m     map[string]int
	t     table
	ch    chan int
	in    <-chan int
	out   chan<- int
	f     func()
	i     interface{}
	st    struct{ a int }
	u64   uint64
)

var (
	a1 = len(s)
	a2 = len(three)
	a3 = len(p3)
	a4 = len(names)
	a5 = len(m)
	a6 = len(ch)
	a7 = len(pp3)           // ERROR 7:E55
	a8 = len(pn)            // ERROR 7:E55
	a9 = len(n)             // ERROR 7:E55
	b1 = len(st)            // ERROR 7:E55
	b2 = len(i)             // ERROR 7:E55
	b3 = len(f)             // ERROR 7:E55
	b4 = len(nil)           // ERROR 11:E26
	b5 = len()              // ERROR 7:E51
	b6 = len(s, s)          // ERROR 7:E51
	b7 = len(5)             // ERROR 7:E55
	b8 = len("a" + s)
	b9 = cap(names)
	c1 = cap(three)
	c2 = cap(p3)
	c3 = cap(ch)
	c4 = cap(s)             // ERROR 7:E55
	c5 = cap(m)             // ERROR 7:E55
	c6 = cap("a")           // ERROR 7:E55
	c7 = len(string)        // ERROR 11:E24
	c8 = len(undefined)     // ERROR 11:E3
	c9 = (len)(s)
	d1 = append(names, "a", "b")
	d2 = append(names)
	d3 = append(names, 1)       // ERROR 21:E32
	d4 = append(names, lines...)
	d5 = append(lines, names...)
	d6 = append(names, lines)   // ERROR 21:E32
	d7 texts = append(lines, "a")
	d8 = append(bs, "a"...)
	d9 = append(bs, s...)
	e1 = append(mb, s...)
	e2 = append(rs, s...)       // ERROR 18:E32
	e3 = append(names, s...)    // ERROR 21:E32
	e4 = append(n, 1)           // ERROR 7:E55
	e5 = append()               // ERROR 7:E51
	e6 = append(nil, 1)         // ERROR 14:E26
	e7 = append(three, 1)       // ERROR 7:E55
	e8 = append(bs, 1, 256)     // ERROR 21:E32
	e9 = append(bs, 'a', nil)   // ERROR 23:E32
	f1 = append(names, nil...)
	f2 = append(names, "a", names...) // ERROR 7:E51 21:E32
	f3 = copy(names, lines)
	f4 = copy(bs, s)
	f5 = copy(bs, "abc")
	f6 = copy(s, bs)            // ERROR 7:E55
	f7 = copy(bs, names)        // ERROR 7:E55
	f8 = copy(rs, s)            // ERROR 7:E55
	f9 = copy(bs)               // ERROR 7:E51
	g1 = copy(bs, nil)          // ERROR 16:E26
	g2 = copy(several())        // ERROR 7:E51 12:E25
	g3 int = copy(bs, bs)
	g4 string = copy(bs, bs)    // ERROR 14:E32
	g5 = new(int)
	g6 *int = new(int)
	g7 = new(5)                 // ERROR 11:E10
	g8 = new()                  // ERROR 7:E51
	g9 = new(int, int)          // ERROR 7:E51 16:E24
	h1 = *new(int)
	h2 = recover()
	h3 interface{} = recover()
	h4 = recover(1)             // ERROR 7:E51
	h5 = panic(1)               // ERROR 7:E24
	h6 = print(1)               // ERROR 7:E24
	h7 = delete(m, "a")         // ERROR 7:E24
	h8 = close(ch)              // ERROR 7:E24
	h9 = delete(m, 1)           // ERROR 7:E24 17:E32
	i1 = delete(names, 1)       // ERROR 7:E55
	i2 = close(in)              // ERROR 7:E55
	i3 = close(out)             // ERROR 7:E24
	i4 = close(n)               // ERROR 7:E55
	i5 = panic()                // ERROR 7:E51
	i6 = panic(nil)             // ERROR 7:E24
	i7 = println(nil)           // ERROR 7:E24 15:E26
	i8 = println(1 << 63)       // ERROR 7:E24 15:E30
	i9 = len                    // ERROR 7:E24
	j1 = complex(1, 2)          // ERROR 7:outside-complex
)
