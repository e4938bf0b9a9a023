// Not for go/types: of circles that meet it tells one, and of one that passes a constant the variable.

package cycles

var a1 int = a2 + a3 // ERROR 5:E5
var a2 int = a1 // ERROR 5:E5
var a3 int = a1 // ERROR 5:E5

var b1 [2]int = [2]int{b2}

const b2 = len(b1) // ERROR 7:E4
