// Values of variables that are operators' results.

package variables

var (
	n uint   = 3
	m uint64 = 1<<n - 1
	s string = 1 << n // ERROR 13:E37

	t string
	c = t + 1 // ERROR 6:E33
	p = &3    // ERROR 6:E39
)

const N = -int8(5)

var V int = "x" // ERROR 13:E32
