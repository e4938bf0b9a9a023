// Not for go/types: of functions in a circle it tells the last alone.

package functions

type T int

func a1(a2) // ERROR 9:E10
func a2(a1) // ERROR 9:E10

func b1() b2 // ERROR 11:E10
func b2() (int, b3) // ERROR 17:E10
func b3(...b1) // ERROR 12:E10

func c1(c2) // ERROR 9:E10

var c2 *c1 // ERROR 9:E10

// The methods of a type count where what it is declared with is asked for, and their names denote nothing.
func (T) d1(d2) // ERROR 13:E10
func (T) d3(d3) // ERROR 13:E3

const d4 T = 1

var d2 []d4 // ERROR 10:E10

// No circles.
func e1(e2) // ERROR 9:E10
func e2(T, func(int) T)
func (T) e3(e1, []T) // ERROR 13:E10
