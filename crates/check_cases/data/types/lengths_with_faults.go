// Lengths of arrays of which a part is wrong.

package types

const n = 3
const text = "a"
const small int8 = 5

var v int

type T struct{}

type B4 [T]int // ERROR 10:E24
type B7 [nowhere]int // ERROR 10:E3
type C1 [1 << 127]int // ERROR 10:outside-wide
type C2 [1 / 0]int // ERROR 10:E31
type C7 [text + 1]int // ERROR 10:E33
type C8 [small + 123]int // ERROR 10:E30
type C9 [_]int // ERROR 10:E17
type D1 [iota]int // ERROR 10:E3
type D2 [len]int // ERROR 10:E24
type D3 [1 << -1]int // ERROR 10:E36
type D4 [text << 1]int // ERROR 10:E37
type D5 [-text]int // ERROR 10:E34
type D6 [nil == nil]int // ERROR 10:E35
type D7 [n.X]int // ERROR 10:E20
type E2 [v + "a"]int // ERROR 10:E33
type E4 [1 + T]int // ERROR 14:E24
type E6 [nowhere][nowhere]int // ERROR 10:E3 19:E3
