// Which methods a struct or an interface has of what it embeds, told by comparisons: E97 where it has M, else E33.

package methods

type I interface{ M() }
type K int
type L int
type R struct{ M int }

func (K) M()
func (*L) M()

var i I
var s1 struct{ K }
var s2 struct{ L }
var s3 struct{ *L }
var s4 *struct{ L }
var s5 struct{ K; *L }
var s6 struct{ I }
var s7 struct{ a struct{ K }; K }
var s8 struct{ K; M int }
var s9 struct{ R; x struct{ K } }
var t1 struct{ *struct1; x int }
var t2 struct{ struct1; K }
var j interface{ M(); N() }
var h interface{ N() }
var e interface{}

type struct1 struct{ K; R }

const A1 = i == s1 // ERROR 12:E97
const A2 = i == s2 // ERROR 12:E33
const A3 = i == s3 // ERROR 12:E97
const A4 = i == s4 // ERROR 12:E97
const A5 = i == s5 // ERROR 12:E33
const A6 = i == s6 // ERROR 12:E97
const A7 = i == s7 // ERROR 12:E97
const A8 = i == s8 // ERROR 12:E33
const A9 = i == s9 // ERROR 12:E33
const B1 = i == t1 // ERROR 12:E33
const B2 = i == t2 // ERROR 12:E97
const B3 = i == j // ERROR 12:E97
const B4 = i == h // ERROR 12:E33
const B5 = e == h // ERROR 12:E97
