// Methods with faulty signatures. They are of their types all the same: a name selects them, by depth and by receiver. Nothing more is said of one that is
// selected, and nothing where a test whether an interface is implemented comes to one, in the order of names.

package methods

type S struct{ n int }

func (*S) Add(n Missing) int // ERROR 17:E3
func (S) Get() Missing       // ERROR 16:E3
func (S) Len() int
func (S) Sum([]Missing, ...[1 / 0]int) // ERROR 16:E3 E31
func (*S) Add(int) int                 // ERROR 11:E14
func (S) n(Missing)                    // ERROR 10:E14 12:E3

type O struct{}

func (O) Add(int) int
func (*O) Get() int

type A struct{ S }
type B struct{ *S }
type Two struct {
	S
	O
}
type Hides struct{ S }
type Deep struct {
	Hides
	B
}
type Field struct {
	S
	Add int
}

func (Hides) Add(int) int

type Adder interface{ Add(int) int }
type Getter interface{ Get() int }
type Aaa interface {
	Add(int) int
	Aaa()
}
type Close interface {
	Add(int) int
	Close()
}
type Len interface {
	Add(int) int
	Len() string
}
type Wrong interface {
	Aen()
	Get() int
}
type Both interface {
	Getter
	Len() int
}

var s *S
var v S
var a A
var b B
var t Two
var h Hides
var d Deep
var f Field
var x Adder
var g Getter
var l interface{ Len() int }

// ---- selected

var C1 = s.Add
var C2 = s.Add(1)
var C3 = v.Add(1)
var C4 = v.Get().n
var C5 = S{}.Get()
var C6 = S{}.Add(1) // ERROR 10:E22
var C7 = a.Add(1)
var C8 = A{}.Add    // ERROR 10:E22
var C9 = B{}.Add(1)
var D1 = t.Add      // ERROR 10:E21
var D2 = h.Add("x") // ERROR 16:E32
var D3 = d.Add("x") // ERROR 16:E32
var D4 = f.Add(1)   // ERROR 10:E50
var D5 = S.Add      // ERROR 10:E22
var D6 = (*S).Add
var D7 = S.Get
var D8 = (*A).Get
var D9 = s.Put // ERROR 10:E20
var E1 = s.add // ERROR 10:E20
var E2 int = s.n
var E3 string = s.Get()
var E4 = s.Sum

// ---- implementing

var F1 Adder = s
var F2 Getter = s
var F3 Getter = v
var F4 Adder = &a
var F5 Adder = b
var F6 Adder = t // ERROR 16:E32
var F7 Adder = h
var F8 Aaa = s // ERROR 14:E32
var F9 Close = s
var G1 Len = s
var G2 Wrong = s // ERROR 16:E32
var G3 Both = v
var G4 = Adder(s)
var G5 = Aaa(s) // ERROR 10:E53
var G6 = []Getter{s, v, 1} // ERROR 25:E32
var G7 = x.(*S)
var G8 = g.(S)
var G9 = x.(*A)
var H1 = g.(Two) // ERROR 10:E47
var H2 = l.(*S)

const I1 = x == s // ERROR 12:E33
const I2 = l == s // ERROR 12:E97

func use(Getter) Getter {
	use(s)
	use(h)
	use(O{}) // ERROR 6:E32
	switch x.(type) {
	case *S, *A:
	case Two: // ERROR 7:E47
	}
	switch g {
	case v: // ERROR 7:E33
	}
	g = s
	g = v.Get
	return v
}
