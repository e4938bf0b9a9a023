// The names of functions.

package functions

type A int
type B struct{}

var C, D int

const E = 1

func A() // ERROR 6:E1
func F()
func F() // ERROR 6:E1
func F(int) string // ERROR 6:E1
func D() // ERROR 6:E1
func E() // ERROR 6:E1
func G()

var G int // ERROR 5:E1

type F int // ERROR 6:E1

const G = 2 // ERROR 7:E1

func H(nowhere) // ERROR 8:E3
func H() // ERROR 6:E1
func _()
func _()
func (A) F()
func (B) C()
func len() B

const I = F // ERROR 11:E97
const J = G // ERROR 11:E97
const K = F + 1 // ERROR 11:E33
const L = len // ERROR 11:E97
const M = F == F // ERROR 11:E35
const N = F != nil // ERROR 11:E97
const O = F + F // ERROR 11:E34
const P = !F // ERROR 11:E34
const Q = 1 + H
const R = A // ERROR 11:E24
