// Lists that are repeated.

package constants

const (
	A1 uint8 = 250 + iota*2
	A2
	A3
	A4 // ERROR 2:E32
	A5 // ERROR 2:E32
)

const (
	B1, B2 uint8 = iota, iota * 300
	B3, B4 // ERROR 6:E32
	_, B6 // ERROR 5:E32
)

const (
	C1, C2 uint8 = iota * 300, iota
	C3, C4 // ERROR 2:E32
)

const X int8 = 1

const (
	D1 = X << (iota + 6)
	D2 // ERROR 2:E30
	D3 // ERROR 2:E30
)

const (
	E1 = 10 / (1 - iota)
	E2 // ERROR 2:E31
	E3
)

const (
	F1 uint8 = 255 + iota
	F2 // ERROR 2:E32
)

const (
	G1 = iota + Nowhere // ERROR 14:E3
	G2 // ERROR 2:E3
	G3 = iota
)

const (
	H1 int8 = 127
	H2
	H3 = H2 + iota*0
	H4
)
