// The names and types of fields.

package structs

const c = 1

var v int

type A1 struct{}
type A2 struct{ a, b int }
type A3 struct {
	a int
	b string "tag"
	c *A3 `raw`
}
type A4 struct {
	a int
	a string // ERROR 2:E14
}
type A5 struct{ a, b, a int } // ERROR 23:E14
type A6 struct {
	_, a, _ int
	_       string
}
type A7 struct{ a, a, a int } // ERROR 20:E14 23:E14
type A8 struct {
	a, b int
	b, a bool // ERROR 2:E14 5:E14
	c    string
	c    string "tag" // ERROR 2:E14
}
type A9 struct{ a [2]struct{ b, b int } } // ERROR 33:E14
type B1 struct{ a struct{ a int } }
type B2 struct {
	a int
	b struct {
		a int
		a int // ERROR 3:E14
	}
	b int // ERROR 2:E14
}
type B3 struct{ f func(a, b int) (c, d int) }
type B4 struct{ a nowhere } // ERROR 19:E3
type B5 struct{ a c } // ERROR 19:E10
type B6 struct{ a, b []v } // ERROR 24:E10
type B7 struct {
	a, A int
	ä, Ä int
}
type B8 struct{ a int; b a } // ERROR 26:E3
type B9 = struct{ a, a int } // ERROR 22:E14
type C1 map[string]struct{ a, a int } // ERROR 31:E14
type C2 func(struct{ a, a int }) struct{ b, b int } // ERROR 25:E14 45:E14
type C3 struct{ next, prev *C3; m map[string]C3 }
type C4 struct{ string; String string }
type C5 struct{ a [-1]int; b, b int } // ERROR 19:E11 31:E14

var w struct{ a, a int } // ERROR 18:E14

func f(struct{ a, a int }) // ERROR 19:E14
func (A1) m() struct{ a, b, b int } // ERROR 29:E14
