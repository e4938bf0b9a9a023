// The names of variables.

package variables

type A int

var B, C int
var A int // ERROR 5:E1
var B string // ERROR 5:E1
var D, C string // ERROR 8:E1
var E, E, E int // ERROR 8:E1 11:E1
var _, _ int
var (
	F    int
	G, H bool
	G    int // ERROR 2:E1
)

func F() // ERROR 6:E1

type H int // ERROR 6:E1

const F, I = 1, 2 // ERROR 7:E1

func J()

var I, J, K []A // ERROR 5:E1 8:E1
var K nowhere // ERROR 5:E1 7:E3
var init, L int // ERROR 5:E2
var M int

const N = M + 1 // ERROR 11:E97
const O = M + "a" // ERROR 11:E33
const P = I + 1
const Q = A // ERROR 11:E24
