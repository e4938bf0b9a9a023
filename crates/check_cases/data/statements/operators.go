// Assignments with an operator, and counting.

package statements

type seconds int

type flags uint8

const zero = 0

var (
	n    int
	m8   int8
	u    uint
	s    string
	b    bool
	any  interface{}
	sec  seconds
	fl   flags
	list []int
	ages map[string]int
	p    *int
)

func two() (int, int)

func apply() {
	n += "a"             // ERROR 2:E33
	n += s               // ERROR 2:E33
	s += 1               // ERROR 2:E33
	s -= "a"             // ERROR 2:E34
	b += true            // ERROR 2:E34
	n += m8              // ERROR 2:E33
	m8 += 128            // ERROR 2:E33
	u += -1              // ERROR 2:E33
	sec += n             // ERROR 2:E33
	n /= 0               // ERROR 2:E31
	n %= zero            // ERROR 2:E31
	n <<= -1             // ERROR 2:E36
	n <<= "a"            // ERROR 2:E36
	s <<= 1              // ERROR 2:E37
	list += nil          // ERROR 2:E34
	n += nil             // ERROR 2:E33
	any += 1             // ERROR 2:E34
	1 += n               // ERROR 2:E72
	zero += 1            // ERROR 2:E72
	n + 1 += 1           // ERROR 2:E72
	p += 1               // ERROR 2:E33
	n, u += 1, 2         // ERROR 2:E73
	n += 1, 2            // ERROR 2:E73
	n += two()           // ERROR 7:E25
	n &= 1.5             // ERROR 7:outside-float
	n += 1
	s += "a"
	sec *= 2
	fl &^= 1
	list[0] <<= u
	ages["a"]++
	*p |= 3
}

func count() {
	s++                  // ERROR 2:E34
	b--                  // ERROR 2:E34
	list++               // ERROR 2:E34
	any--                // ERROR 2:E34
	p++                  // ERROR 2:E34
	zero++               // ERROR 2:E72
	1++                  // ERROR 2:E72
	"a"[0]++             // ERROR 2:E72
	len(s)--             // ERROR 2:E72
	n++
	(n)--
	*p++
	list[0]--
}
