// Literals of array and slice types.

package literals

type A0 [0]int

type A1 [10]int

type S0 []int

const s = "foo"

const one int8 = 1

var i = 1

var (
	a01 = A0{}
	a02 = A0{0}                                   // ERROR 8:E43
	a03 = A0{0: 0}                                // ERROR 8:E43
	a04 = A1{0, 1, 2, 3, 4, 5, 6, 7, 8, 9}
	a05 = A1{0, 1, 2, 3, 4, 5, 6, 7, 8, 9, 10}    // ERROR 8:E43
	a06 = A1{-1: 0}                               // ERROR 8:E66
	a07 = A1{8: 8, 9}
	a08 = A1{8: 8, 9, 10}                         // ERROR 8:E43
	a09 = A1{0, 1, 2, 0: 0, 3: 3, 4}              // ERROR 8:E63
	a10 = A1{5: 5, 6, 7, 3: 3, 4}
	a11 = A1{5: 5, 6, 7, 3: 3, 4, 5}              // ERROR 8:E63
	a12 = A1{10: 10}                              // ERROR 8:E43
	a13 = A1{5: 5, 6, 7, 4: 4, 1 << 100: 4}       // ERROR 8:E66
	a14 = A1{"foo"}                               // ERROR 11:E32
	a15 = A1{i: 0}                                // ERROR 8:E66
	a16 = A1{s: 0}                                // ERROR 8:E66
	a17 = A1{nil: 0}                              // ERROR 8:E66
	a18 = A1{true: 0}                             // ERROR 8:E66
	a19 = A1{one: 0, 1: 1}                        // ERROR 8:E63
	a20 = A1{one: 0, 'b' - 'a' + 1: 1}
	a21 = A1{undefined: 0}                        // ERROR 11:E3
	a22 = A1{0: undefined}                        // ERROR 14:E3
	a23 = A1{{}: 0}                               // ERROR 11:E60
	s01 = S0{0, 1, 2, 3, 4, 5, 6, 7, 8, 9, 10}
	s02 = S0{-1: 0}                               // ERROR 8:E66
	s03 = S0{8: 8, 9, 10}
	s04 = S0{0, 1, 2, 0: 0, 3: 3, 4}              // ERROR 8:E63
	s05 = S0{10: 10, 10: 10}                      // ERROR 8:E63
	s06 = S0{9223372036854775807: 0}
	s07 = S0{9223372036854775808: 0}              // ERROR 8:E66
	d01 = [...]int{}
	d02 = [...]int{0, 1, 2}
	d03 = [...]int{-1: 0}                         // ERROR 8:E66
	d04 = [...]int{0, 1, 2, 0: 0}                 // ERROR 8:E63
	d05 = [...]int{9223372036854775807: 0}        // ERROR 8:E43
	d06 [0]int = d01
	d07 [3]int = d02
	d08 [4]int = d02                              // ERROR 15:E32
	d09 [8]int = [...]int{7: 1, 2: 1}
	d10 [5]int = [...]int{3: 1, 1}
	d11        = [...]undefined{1}                // ERROR 20:E3
)
