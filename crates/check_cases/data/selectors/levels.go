// Thirty levels of pairs: a name of the last is reached by 2^29 ways of the same length, and a value holds 2^30 of the last.

package selectors

type (
	A0 struct {
		A1
		*B1
	}
	B0 struct {
		A1
		*B1
	}
	A1 struct {
		A2
		*B2
	}
	B1 struct {
		A2
		*B2
	}
	A2 struct {
		A3
		*B3
	}
	B2 struct {
		A3
		*B3
	}
	A3 struct {
		A4
		*B4
	}
	B3 struct {
		A4
		*B4
	}
	A4 struct {
		A5
		*B5
	}
	B4 struct {
		A5
		*B5
	}
	A5 struct {
		A6
		*B6
	}
	B5 struct {
		A6
		*B6
	}
	A6 struct {
		A7
		*B7
	}
	B6 struct {
		A7
		*B7
	}
	A7 struct {
		A8
		*B8
	}
	B7 struct {
		A8
		*B8
	}
	A8 struct {
		A9
		*B9
	}
	B8 struct {
		A9
		*B9
	}
	A9 struct {
		A10
		*B10
	}
	B9 struct {
		A10
		*B10
	}
	A10 struct {
		A11
		*B11
	}
	B10 struct {
		A11
		*B11
	}
	A11 struct {
		A12
		*B12
	}
	B11 struct {
		A12
		*B12
	}
	A12 struct {
		A13
		*B13
	}
	B12 struct {
		A13
		*B13
	}
	A13 struct {
		A14
		*B14
	}
	B13 struct {
		A14
		*B14
	}
	A14 struct {
		A15
		*B15
	}
	B14 struct {
		A15
		*B15
	}
	A15 struct {
		A16
		*B16
	}
	B15 struct {
		A16
		*B16
	}
	A16 struct {
		A17
		*B17
	}
	B16 struct {
		A17
		*B17
	}
	A17 struct {
		A18
		*B18
	}
	B17 struct {
		A18
		*B18
	}
	A18 struct {
		A19
		*B19
	}
	B18 struct {
		A19
		*B19
	}
	A19 struct {
		A20
		*B20
	}
	B19 struct {
		A20
		*B20
	}
	A20 struct {
		A21
		*B21
	}
	B20 struct {
		A21
		*B21
	}
	A21 struct {
		A22
		*B22
	}
	B21 struct {
		A22
		*B22
	}
	A22 struct {
		A23
		*B23
	}
	B22 struct {
		A23
		*B23
	}
	A23 struct {
		A24
		*B24
	}
	B23 struct {
		A24
		*B24
	}
	A24 struct {
		A25
		*B25
	}
	B24 struct {
		A25
		*B25
	}
	A25 struct {
		A26
		*B26
	}
	B25 struct {
		A26
		*B26
	}
	A26 struct {
		A27
		*B27
	}
	B26 struct {
		A27
		*B27
	}
	A27 struct {
		A28
		*B28
	}
	B27 struct {
		A28
		*B28
	}
	A28 struct {
		A29
		*B29
	}
	B28 struct {
		A29
		*B29
	}
	A29 struct {
		A30
		*B30
	}
	B29 struct {
		A30
		*B30
	}
	A30 struct{}
	B30 struct{ F int }

	C0  struct{ a, b C1 }
	C1  struct{ a, b C2 }
	C2  struct{ a, b C3 }
	C3  struct{ a, b C4 }
	C4  struct{ a, b C5 }
	C5  struct{ a, b C6 }
	C6  struct{ a, b C7 }
	C7  struct{ a, b C8 }
	C8  struct{ a, b C9 }
	C9  struct{ a, b C10 }
	C10 struct{ a, b C11 }
	C11 struct{ a, b C12 }
	C12 struct{ a, b C13 }
	C13 struct{ a, b C14 }
	C14 struct{ a, b C15 }
	C15 struct{ a, b C16 }
	C16 struct{ a, b C17 }
	C17 struct{ a, b C18 }
	C18 struct{ a, b C19 }
	C19 struct{ a, b C20 }
	C20 struct{ a, b C21 }
	C21 struct{ a, b C22 }
	C22 struct{ a, b C23 }
	C23 struct{ a, b C24 }
	C24 struct{ a, b C25 }
	C25 struct{ a, b C26 }
	C26 struct{ a, b C27 }
	C27 struct{ a, b C28 }
	C28 struct{ a, b C29 }
	C29 struct{ a, b C30 }
	C30 int

	D0  struct{ a, b D1 }
	D1  struct{ a, b D2 }
	D2  struct{ a, b D3 }
	D3  struct{ a, b D4 }
	D4  struct{ a, b D5 }
	D5  struct{ a, b D6 }
	D6  struct{ a, b D7 }
	D7  struct{ a, b D8 }
	D8  struct{ a, b D9 }
	D9  struct{ a, b D10 }
	D10 struct{ a, b D11 }
	D11 struct{ a, b D12 }
	D12 struct{ a, b D13 }
	D13 struct{ a, b D14 }
	D14 struct{ a, b D15 }
	D15 struct{ a, b D16 }
	D16 struct{ a, b D17 }
	D17 struct{ a, b D18 }
	D18 struct{ a, b D19 }
	D19 struct{ a, b D20 }
	D20 struct{ a, b D21 }
	D21 struct{ a, b D22 }
	D22 struct{ a, b D23 }
	D23 struct{ a, b D24 }
	D24 struct{ a, b D25 }
	D25 struct{ a, b D26 }
	D26 struct{ a, b D27 }
	D27 struct{ a, b D28 }
	D28 struct{ a, b D29 }
	D29 struct{ a, b D30 }
	D30 []int
)

var (
	top  A0
	near B29

	one  = near.F
	many = top.F // ERROR E21
	none = top.G // ERROR E20

	keys   map[C0]int
	noKeys map[D0]int // ERROR E12
)
