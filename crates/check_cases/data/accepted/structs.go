// Struct types.

package accepted

type A1 struct{}
type A2 struct{ a, b int }
type A3 struct {
	a    int "tag"
	b, c string `json:"b" xml:"c"`
	_, _ bool
	A    int
}
type A4 struct {
	A1
	*A2
	A3 "embedded"
	*A5 `raw`
}
type A5 struct {
	next, prev *A5
	in         []A5
	byName     map[string]A5
	call       func(A5) A5
}
type A6 = A5
type A7 struct {
	A5
	A6
}
type A8 struct{ int; *string; error; a, b struct{ int } }
type A9 interface{ M() }
type B1 struct{ A9; *A1 }
type B2 []int
type B3 struct{ *B2; B4; a B5 }
type B4 func(B3)
type B5 [2]B6
type B6 struct{ A6; a struct{ a struct{ a int } } }
type B7 struct{ int int; string string }
type B8 struct{ a int; A1; b struct{ A1; a int } }
type B9 = struct{ A1 }
type C1 struct{ A9 A9; f func(a, b int) (c int) }

var c2 struct{ a, b C1 }

func c3(struct{ A1 }, ...struct{ a int }) struct{ *A2 }
