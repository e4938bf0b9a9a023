// Conversions of values.

package calls4

type number int

type text string

type bytes []byte

type letters []rune

type byteLike byte

type tagged struct {
	f int `a:"b"`
}

type untagged struct{ f int }

type other struct{ g int }

type named *tagged

type stringer interface{ String() string }

func (number) String() string

var (
	n    int
	u8   uint8
	num  number
	s    string
	t    text
	bs   []byte
	rs   []rune
	like []byteLike
	mb   bytes
	b    bool
	pt   *tagged
	pu   *untagged
	po   *other
	tg   tagged
	ug   untagged
	ot   other
	is   []int
	two  [2]int
	ch   chan int
	f    func(int) int
	i    interface{}
	st   stringer
	ppt  **tagged
	ppu  **untagged
)

var (
	a1 = int8(n)
	a2 = uint64(u8)
	a3 = number(n)
	a4 = int(num)
	a5 = string(n)
	a6 = string(u8)
	a7 = string(bs)
	a8 = string(rs)
	a9 = text(s)
	b1 = []byte(s)
	b2 = []rune(t)
	b3 = bytes(s)
	b4 = letters(s)
	b5 = []byteLike(s)
	b6 = string(like)
	b7 = string(is)          // ERROR 7:E53
	b8 = []int(s)            // ERROR 7:E53
	b9 = int(s)              // ERROR 7:E53
	c1 = string(b)           // ERROR 7:E53
	c2 = bool(n)             // ERROR 7:E53
	c3 = int(b)              // ERROR 7:E53
	c4 = bytes(bs)
	c5 = []byte(mb)
	c6 = []rune(bs)          // ERROR 7:E53
	c7 = tagged(ug)
	c8 = untagged(tg)
	c9 = other(ug)           // ERROR 7:E53
	d1 = (*untagged)(pt)
	d2 = (*tagged)(pu)
	d3 = (*other)(pu)        // ERROR 7:E53
	d4 = (**untagged)(ppt)   // ERROR 7:E53
	d5 = (*[2]int)(is)
	d6 = (*[2]byte)(is)      // ERROR 7:E53
	d7 = [2]int(is)          // ERROR 7:E53
	d8 = (<-chan int)(ch)
	d9 = (chan<- int)(ch)
	e1 = (func(int) int)(f)
	e2 = (func(int))(f)      // ERROR 7:E53
	e3 = interface{}(n)
	e4 = stringer(num)
	e5 = stringer(n)         // ERROR 7:E53
	e6 = interface{}(st)
	e7 = int(i)              // ERROR 7:E53
	e8 = (*tagged)(nil)
	e9 = []int(nil)
	f1 = int(nil)            // ERROR 7:E53
	f2 = tagged(nil)         // ERROR 7:E53
	f3 = interface{}(nil)
	f4 = int8()              // ERROR 7:E54
	f5 = int8(1, 2)          // ERROR 7:E54
	f6 = int8(undefined)     // ERROR 12:E3
	f7 = undefined(1)        // ERROR 7:E3
	f8 = bool(n < 2)
	f9 = string(n < 2)       // ERROR 7:E53
	g1 = int64(1 << u8)
	g2 = string(1 << u8)     // ERROR 14:E37
	g3 = interface{}(1 << u8)
	g4 = number(int8(n))
	g5 int = int8(n)         // ERROR 11:E32
	g6 = int(int)            // ERROR 11:E24
	g7 = named(pt)
	g8 = named(pu)           // ERROR 7:E53
	g9 = int8(n) + int16(n)  // ERROR 7:E33
)
