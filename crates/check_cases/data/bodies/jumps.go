// Jumps: where a label leads, over which variables, and into which blocks.

package bodies

var (
	n    int
	b    bool
	any  interface{}
	ints chan int
	list []int
)

func call() bool

func use(...interface{})

func over() {
	if b {
		goto L              // ERROR 3:E93
	}
	x := 1
	use(x)
L:
	for {
		goto M              // ERROR 3:E93
	}
	var y, z = 1, 2
	use(y, z)
M:
	call()
	goto N                  // ERROR 2:E93
	var _ = 1
N:
	call()
}

func back() {
L:
	x := 1
	use(x)
	if b {
		goto L
	}
	var y int
	use(y)
	goto L
}

func overNothing() {
	goto L
	type t int
	const c = 1
	func() {
		x := 1
		use(x)
	}()
	if x := 1; x > 0 {
		y := 2
		use(y)
	}
	for x := range list {
		use(x)
	}
	switch x := any.(type) {
	default:
		use(x)
	}
	select {
	case x := <-ints:
		use(x)
	}
L:
	call()
}

func inside() {
	{
		goto L
		{
			x := 1
			use(x)
		}
	L:
		call()
	}
	for {
		goto M              // ERROR 3:E93
		x := 1
		use(x)
	M:
		call()
	}
	switch n {
	case 1:
		goto N              // ERROR 3:E93
		x := 1
		use(x)
	N:
		call()
	case 2:
		goto O
	O:
		x := 1
		use(x)
	}
	x := 1
	use(x)
}

func outward() {
	for {
		switch n {
		case 1:
			select {
			case <-ints:
				if b {
					goto L
				}
			}
		}
	}
L:
	call()
	{
		x := 1
		use(x)
		goto L
	}
}

func into() {
	goto A                  // ERROR 2:E94
	{
	A:
		call()
	}
	goto B                  // ERROR 2:E94
	if b {
	B:
		call()
	}
	goto C                  // ERROR 2:E94
	if b {
	} else {
	C:
		call()
	}
	goto D                  // ERROR 2:E94
	for {
	D:
		call()
	}
	goto E                  // ERROR 2:E94
	for range list {
	E:
		call()
	}
	goto F                  // ERROR 2:E94
	switch n {
	case 1:
	F:
		call()
	}
	goto G                  // ERROR 2:E94
	switch any.(type) {
	default:
	G:
		call()
	}
	goto H                  // ERROR 2:E94
	select {
	case <-ints:
	H:
		call()
	}
	goto I                  // ERROR 2:E94
	{
		{
		I:
			call()
		}
	}
}

func backInto() {
	{
	A:
		call()
	}
	goto A                  // ERROR 2:E94
	if b {
	B:
		call()
	} else {
		goto B              // ERROR 3:E94
	}
	switch n {
	case 1:
	C:
		call()
	case 2:
		goto C              // ERROR 3:E94
	}
	for {
		{
		D:
			call()
		}
		goto D              // ERROR 3:E94
	}
}

func siblings() {
	if b {
		goto A              // ERROR 3:E94
	} else if call() {
	A:
		call()
	}
	{
		x := 1
		use(x)
		goto B              // ERROR 3:E94
	}
	{
	B:
		x := 1
		use(x)
	}
}

func intoOver() {
	goto A                  // ERROR 2:E93
	{
		x := 1
		use(x)
	A:
		call()
	}
}

func ofLabels() {
A:
	if b {
		goto A
	}
B:
	for {
		goto B
	}
C:
D:
	for {
		goto C
		goto D
	}
	goto E
E:
F:
G:
	call()
	goto G
	goto F
}

func onBlocks() {
	goto A
A:
	{
		x := 1
		use(x)
		goto A
	}
	goto B                  // ERROR 2:E94
	{
	B:
		{
			goto B
		}
	}
}

func literals() {
	goto A
A:
	func() {
		goto A              // ERROR 8:E90
		for {
			break A         // ERROR 10:E90
			continue A      // ERROR 13:E90
		}
	B:
		goto B
	}()
	goto B                  // ERROR 7:E90
	func() {
	A:
		for {
			break A
		}
	C:                      // ERROR 2:E91
		call()
	}()
	defer func() {
		goto A              // ERROR 3:E94
		{
		A:
			call()
		}
	}()
	use(func() {
	A:
		goto A
	A2:
		call()
		goto A2
	})
}

func repeated() {
A:
	call()
	goto A
A:                          // ERROR 1:E1 1:E91
	call()
	{
	A:                      // ERROR 2:E1 2:E91
		call()
	}
	func() {
	A:
		goto A
	A:                      // ERROR 2:E1 2:E91
	}()
B:                          // ERROR 1:E91
B:                          // ERROR 1:E1 1:E91
	call()
}

func names() {
	call := 1
call:
	use(call)
	goto call
	int := "a"
int:
	use(int)
	goto int
_:
	use(1)
_:
	use(2)
	goto x                  // ERROR 7:E90
	x := 1
	use(x)
	goto _                  // ERROR 7:E90
}

func unused() {
A:                          // ERROR 1:E91
	for {
	B:                      // ERROR 2:E91
		for {
			break
			continue
		}
	}
C:                          // ERROR 1:E91
	switch n {
	case 1:
		break
	}
D:                          // ERROR 1:E91
	{
	E:                      // ERROR 2:E91
	}
}
