// The examples of the Go specification under "Constant declarations" and "Iota", but for floats.

package accepted

const (
	size int64 = 1024
	eof        = -1
)

const a, b, c = 3, 4, "foo"

const (
	Sunday = iota
	Monday
	Tuesday
	Wednesday
	Thursday
	Friday
	Partyday
	numberOfDays
)

const (
	c0 = iota
	c1 = iota
	c2 = iota
)

const (
	d = 1 << iota
	e = 1 << iota
	f = 3
	g = 1 << iota
)

const (
	u       = iota * 42
	v int64 = iota * 42
	w       = iota * 42
)

const x = iota
const y = iota

const (
	bit0, mask0 = 1 << iota, 1<<iota - 1
	bit1, mask1
	_, _
	bit3, mask3
)

const ok = c2 == 2 && g == 8 && f == 3 && v == 42 && w == 84 && x == 0 && y == 0
const days uint8 = numberOfDays - 7
const bits uint8 = mask3 - 7 + 8 - bit3 + bit0 - 1
