// The value of iota, told by constants that would not be assignable were it another.

package accepted

const (
	A1 = iota
	A2
	_
	A4
)

const (
	B1 = 'a' + iota
	B2
	B3, B4 = iota, -iota
	B5, B6
)

const (
	_  = iota
	KB = 1 << (10 * iota)
	MB
	GB
)

const C1, C2 = iota, iota + 1
const C3 uint8 = A4 - 3
const C4 uint8 = 3 - A4
const C5 uint8 = B2 - 98
const C6 uint8 = 98 - B2
const C7 uint8 = B6 + 3
const C8 uint8 = -3 - B6
const C9 uint8 = GB>>30 - 1
const D1 uint8 = 1 - GB>>30
const D2 uint8 = C2 - 1
const D3 uint8 = 1 - C2

const (
	E1, _ uint8 = iota, iota * 2
	_, E2
)
const E3 uint8 = E2 - 2
const E4 uint8 = 2 - E2
