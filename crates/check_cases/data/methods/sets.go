// Which methods a type has, told by what may be compared with a variable of an interface: E97 where it may, else E33.

package methods

type I interface{ M() }
type K int
type L int
type N int
type O int
type P1 int
type P2 int
type R struct{ M int }
type D *K

func (K) M()
func (*L) M()
func (N) M(int)
func (O) m()
func (P1) M()
func (P1) M(int) // ERROR 11:E14
func (P2) M(int)
func (P2) M() // ERROR 11:E14
func (R) M() // ERROR 10:E14

var i I
var k K
var pk *K
var l L
var pl *L
var n N
var o O
var p1 P1
var p2 P2
var r R
var d D
var pi *I

const A1 = i == k // ERROR 12:E97
const A2 = i == pk // ERROR 12:E97
const A3 = i == l // ERROR 12:E33
const A4 = i == pl // ERROR 12:E97
const A5 = i == n // ERROR 12:E33
const A6 = i == o // ERROR 12:E33
const A7 = i == p1 // ERROR 12:E97
const A8 = i == p2 // ERROR 12:E33
const A9 = r == i // ERROR 12:E33
const B1 = d == i // ERROR 12:E33
const B2 = pi == i // ERROR 12:E33
const B3 = i != nil // ERROR 12:E97
const B4 = i == 1 // ERROR 12:E33
