// Labels, jumps, and misplaced branches.

package bodies

var (
	n   int
	b   bool
	any interface{}
)

func call()

func undefined() {
	goto L               // ERROR 7:E90
	for {
		break L          // ERROR 9:E90
	}
	for {
		continue L       // ERROR 12:E90
	}
}

func unused() {
L:                       // ERROR 1:E91
	call()
M:                       // ERROR 1:E91
	for {
		break
	}
_:
	call()
}

func repeated() {
L:
	call()
L:                       // ERROR 1:E1 1:E91
	call()
	goto L
}

func nested() {
L:
	func() {
		goto L           // ERROR 8:E90
	}()
	goto L
}

func misplaced() {
	break                // ERROR 2:E95
	continue             // ERROR 2:E95
	if b {
		break            // ERROR 3:E95
	}
	switch n {
	case 1:
		continue         // ERROR 3:E95
	case 2:
		break
	}
	select {
	default:
		break
	}
	for {
		func() {
			break        // ERROR 4:E95
			continue     // ERROR 4:E95
		}()
	}
}

func labelled() {
L:
	for {
		for {
			if b {
				continue L
			}
			break L
		}
	}
M:
	switch n {
	case 1:
		for {
			break M
		}
	}
}

func over() {
	goto L               // ERROR 2:E93
	var x int
	_ = x
L:
	call()
	goto M               // ERROR 2:E93
	y := 1
	_ = y
M:
	call()
	goto N
	{
		z := 1
		_ = z
	}
N:
	call()
	goto O
	const c = 1
	type t int
O:
	call()
P:
	v := 1
	_ = v
	goto P
}

func into() {
	goto L               // ERROR 2:E94
	{
	L:
		call()
	}
	if b {
		goto M           // ERROR 3:E94
	} else {
	M:
		call()
	}
	for {
	N:
		call()
	}
	goto N               // ERROR 2:E94
}

func outOf() {
	for {
		if b {
			goto L
		}
	}
L:
	call()
}

func falls() {
	switch n {
	case 1:
		fallthrough
	case 2:
		if b {
			fallthrough  // ERROR 4:E96
		}
	case 3:
		fallthrough      // ERROR 3:E96
		call()
	case 4:
		{
			fallthrough  // ERROR 4:E96
		}
	case 5:
	L:
		fallthrough
	case 6:
		goto L           // ERROR 3:E94
	default:
		fallthrough      // ERROR 3:E96
	}
	fallthrough          // ERROR 2:E96
	switch any.(type) {
	case int:
		fallthrough      // ERROR 3:E96
	case bool:
	}
	for {
		fallthrough      // ERROR 3:E96
	}
}
