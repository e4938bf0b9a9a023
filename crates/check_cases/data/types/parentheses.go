// Not for go/types: of names that lead back to themselves it tells an initialization cycle, or nothing more than that.
package types

// Between parentheses a type is wanted where one is wanted of the whole.

var a1 [](a1) // ERROR 11:E10

var a2 map[(a2)]int // ERROR 13:E10

var a3 *((a3)) // ERROR 11:E10

var a4 func((a5)) // ERROR 14:E10

var a5 chan (a4) // ERROR 14:E10

func a6((a6)) // ERROR 10:E10

const b1 = 1

var b2 [](b1) // ERROR 11:E10

var b3 = new((5)) // ERROR 15:E10

var b4 = [](b4){} // ERROR 5:E4

type T struct{ t *(T) }

var d1 [](T) = [](T){{}}

var d2 = (*(T))(nil)

// Before a dot too stands none that leads back to itself.

var e1 []e1.f // ERROR 10:E10

var e2 [](e3.f) // ERROR 11:E10

var e3 map[string]e2.f // ERROR 19:E10
