// Literals of struct types.

package literals

type Inner struct{ a, b, c int }

type Outer struct {
	Inner
	a, b int
	s    string
	p    *Inner
}

type P *struct{ x int }

type Any interface{}

var (
	k01 = Outer{}
	k02 = Outer{a: 0, s: "foo", Inner: Inner{}}
	k03 = Outer{a: 0, 1}                  // ERROR 8:E61
	k04 = Outer{aa: 0}                    // ERROR 8:E62
	k05 = Outer{1: 0}                     // ERROR 8:E62
	k06 = Outer{a: 0, s: "foo", a: 10}    // ERROR 8:E63
	k07 = Outer{a: "foo"}                 // ERROR 17:E32
	k08 = Outer{c: 0}                     // ERROR 8:E62
	k09 = Outer{Inner: {}}                // ERROR 21:E60
	k10 = Outer{(a): 0}                   // ERROR 8:E62 15:E3
	k11 = Outer{_: 0}                     // ERROR 8:E62
	k12 = Outer{p: nil, a: nil}           // ERROR 25:E32
	k13 = Outer{p: &Inner{1, 2, 3}}
	k14 = Outer{a: undefined}             // ERROR 17:E3
	u01 = Inner{1, 2, 3}
	u02 = Inner{1, b: 2, 3}               // ERROR 8:E61
	u03 = Inner{1, 2}                     // ERROR 8:E64
	u04 = Inner{1, 2, 3, 4}               // ERROR 8:E64
	u05 = Inner{1, "foo", 3}              // ERROR 17:E32
	u06 = Inner{1, 2, int}                // ERROR 20:E24
	u07 = struct{ _, x int }{1, 2}
	u08 = struct{}{}
	b01 = P{}                             // ERROR 8:E60
	b02 = int{}                           // ERROR 8:E60
	b03 = int{1, a: 2}                    // ERROR 8:E60
	b04 = Any{}                           // ERROR 8:E60
	w01 int    = Inner{}                  // ERROR 15:E32
	w02 *Inner = &Inner{c: 1}
	f01        = Inner{1, 2, 3}.b
)
