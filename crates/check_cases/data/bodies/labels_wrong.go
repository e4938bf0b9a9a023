// Not for go/types: a label that a wrong jump names is used, and one behind its statement isn't round it.

package bodies

var n int

func call()

func labelled() {
N:
	{
		for {
			continue N   // ERROR 4:E95
		}
	}
O:
	switch n {
	default:
		for {
			continue O   // ERROR 4:E95
		}
	}
P:
	call()
	for {
		break P          // ERROR 3:E95
	}
Q:
	for {
		break Q
	}
	for {
		break Q          // ERROR 3:E95
		continue Q       // ERROR 3:E95
	}
}

func into() {
	goto L               // ERROR 2:E94
	goto M               // ERROR 2:E93
	x := 1
	{
	L:
		call()
	}
M:
	n = x
}
