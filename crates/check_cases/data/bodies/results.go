// A return without values, where the name of a result denotes something else.

package bodies

var (
	b    bool
	any  interface{}
	ints chan int
	list []int
)

func two() (int, error)

func use(...interface{})

func blocks() (x int, err error) {
	{
		x := 1
		use(x)
		return              // ERROR 3:E88
	}
	if x := 1; x > 0 {
		return              // ERROR 3:E88
	} else if b {
		return              // ERROR 3:E88
	}
	if y, err := two(); err != nil {
		use(y)
		return              // ERROR 3:E88
	}
	if x, err = two(); err != nil {
		return
	}
	for x := 0; x < 1; x++ {
		return              // ERROR 3:E88
	}
	for x = 0; x < 1; x++ {
		return
	}
	for x := range list {
		use(x)
		return              // ERROR 3:E88
	}
	for x = range list {
		return
	}
	switch x := 1; x {
	case 1:
		return              // ERROR 3:E88
	}
	switch x := any.(type) {
	case int:
		use(x)
		return              // ERROR 3:E88
	default:
		return 1, nil
	}
	switch {
	case b:
		x := 1
		use(x)
		return              // ERROR 3:E88
	default:
		return
	}
	select {
	case x := <-ints:
		use(x)
		return              // ERROR 3:E88
	case x = <-ints:
		return
	}
	return
}

func kinds() (x int) {
	{
		const x = 1
		return              // ERROR 3:E88
	}
	{
		type x int
		return              // ERROR 3:E88
	}
	{
		var x, y int
		use(x, y)
		return              // ERROR 3:E88
	}
	{
		func() {
			x := 1
			use(x)
			return
		}()
		return
	}
	{
		{
			x := 1
			use(x)
		}
		return
	}
	return
}

func before() (x int) {
	{
		return
		x := 1
		use(x)
	}
	{
		x := x
		use(x)
		{
			{
				return      // ERROR 5:E88
			}
		}
	}
	{
		use(x)
		if b {
			return
		}
		x := 2
		use(x)
		return x
	}
	return
}

func labels() (x int) {
x:
	for {
		if b {
			return
		}
		break x
	}
	return
}

func blanks() (_ int, x int, _ error) {
	{
		_, y := two()
		use(y)
		return
	}
	{
		_, x := two()
		use(x)
		return              // ERROR 3:E88
	}
	return
}

func several() (x, y int, z error) {
	{
		x, y := 1, 2
		use(x, y)
		return              // ERROR 3:E88
	}
	{
		z := 1
		use(z)
		return              // ERROR 3:E88
	}
	return
}

func literals() (x int) {
	x, y := 1, 2
	use(y)
	f := func() (x int) {
		x, y := 1, 2
		use(y)
		if b {
			return
		}
		{
			x := 1
			use(x)
			return          // ERROR 4:E88
		}
		return
	}
	g := func() (y int) {
		x := 1
		use(x)
		return
	}
	h := func(x int) (y int) {
		if x := 1; x > 0 {
			return
		}
		if y := 1; y > 0 {
			return          // ERROR 4:E88
		}
		return
	}
	use(f, g, h)
	return
}

type number int

func (n number) method(m int) (x number) {
	{
		n, m := 1, 2
		use(n, m)
		return
	}
	if x := n; x > 0 {
		return              // ERROR 3:E88
	}
	return
}

func unnamed() int {
	{
		return              // ERROR 3:E87
	}
	return 1
}

func without() {
	x := 1
	use(x)
	return
}
