// Not for go/types: that of Go 1.19 stops at a count of a string type.

package operators

const S string = "s"
const T bool = true
const A1 = 1 << S // ERROR 12:E36
const A2 = 1 << T // ERROR 12:E36
const A3 = 1 >> S // ERROR 12:E36
const A4 = 1 << nil // ERROR 17:E26
