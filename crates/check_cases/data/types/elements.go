// What stands where a type is wanted: in arrays, slices, pointers, channels and functions.

package types

const c = 1

var v int

func f()

type T int

type A1 []v // ERROR 11:E10
type A2 []f // ERROR 11:E10
type A3 [2]c // ERROR 12:E10
type A4 *v // ERROR 10:E10
type A5 **c // ERROR 11:E10
type A6 chan v // ERROR 14:E10
type A7 <-chan c // ERROR 16:E10
type A8 chan<- nowhere // ERROR 16:E3
type A9 chan<- chan f // ERROR 21:E10
type B1 func(v) // ERROR 14:E10
type B2 func(a, b c) // ERROR 19:E10
type B3 func(...f) // ERROR 17:E10
type B4 func() v // ERROR 16:E10
type B5 func() (a v, b nowhere) // ERROR 19:E10 24:E3
type B6 func(func(c)) // ERROR 19:E10
type B7 []nowhere // ERROR 11:E3
type B8 = c // ERROR 11:E10
type B9 = []len // ERROR 13:E10
type C1 true // ERROR 9:E10
type C2 nil // ERROR 9:E10
type C3 *len // ERROR 10:E10
type C4 iota // ERROR 9:E3
type C5 any // ERROR 9:E3
type C6 interface{ comparable } // ERROR 20:E3
type C7 init // ERROR 9:E3
type C8 []_ // ERROR 11:E10
type C9 [2]c.X // ERROR 12:E20
type D1 []nowhere.X // ERROR 11:E3
type D2 func(T, ...nowhere) (f, T) // ERROR 20:E3 30:E10
type D3 map[c]v // ERROR 13:E10 15:E10
type D4 c // ERROR 9:E10
type D5 (T)
type D6 []([]v) // ERROR 14:E10
