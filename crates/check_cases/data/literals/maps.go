// Literals of map types.

package literals

type M0 map[string]int

type N int

type Text string

func (N) f()

type F interface{ f() }

var key1 = "foo"

var (
	m01 = M0{}
	m02 = M0{1}                                              // ERROR 8:E65
	m03 = M0{1: 2}                                           // ERROR 11:E32
	m04 = M0{"foo": "bar"}                                   // ERROR 18:E32
	m05 = M0{"foo": 1, "bar": 2, "foo": 3}                   // ERROR 8:E63
	m06 = M0{"A": 1, "\x41": 2}                              // ERROR 8:E63
	m07 = M0{"A": 1, `A`: 2}                                 // ERROR 8:E63
	m08 = M0{key1: 1, key1: 2}
	m09 = M0{undefined: 1}                                   // ERROR 11:E3
	m10 = M0{"a": 1, "b", "a": 2}                            // ERROR 8:E63 19:E32
	m11 = map[interface{}]int{2: 1, 2: 1}                    // ERROR 8:E63
	m12 = map[interface{}]int{int(2): 1, int16(2): 1}
	m13 = map[interface{}]int{int16(2): 1, int16(2): 1}      // ERROR 8:E63
	m14 = map[interface{}]int{2: 1, int(2): 1}               // ERROR 8:E63
	m15 = map[interface{}]int{'a': 1, int32(97): 1}          // ERROR 8:E63
	m16 = map[interface{}]int{"a": 1, Text("a"): 1}
	m17 = map[interface{}]int{Text("a"): 1, Text("a"): 1}    // ERROR 8:E63
	m18 = map[F]int{N(0): 1, N(2): 1}
	m19 = map[F]int{N(2): 1, N(2): 1}                        // ERROR 8:E63
	m20 = map[bool]int{true: 1, 1 == 1: 2}                   // ERROR 8:E63
	m21 = map[int]int{1: 1, 2 - 1: 2}                        // ERROR 8:E63
	m22 = map[*int]int{nil: 0, nil: 1}
	m23 = map[string]int{nil: 0}                             // ERROR 23:E32
)
