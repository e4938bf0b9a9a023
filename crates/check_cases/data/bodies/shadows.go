// Results that are shadowed where a function returns without values.

package bodies

func use(...interface{})

func one() (int, error)

func f1() (x int, err error) {
	if y, err := one(); err != nil {
		use(y)
		return           // ERROR 3:E88
	}
	{
		x := 1
		use(x)
		return           // ERROR 3:E88
	}
	{
		use(x)
		x := 1
		use(x)
	}
	return
}

func f2() (x int) {
	{
		return
		x := 1
		use(x)
	}
	func() (y int) {
		x := 1
		use(x)
		return
	}()
	func() (y int) {
		{
			y := 1
			use(y)
			return       // ERROR 4:E88
		}
	}()
	for x := range []int{} {
		if x > 0 {
			return       // ERROR 4:E88
		}
		return x
	}
	switch x := interface{}(x).(type) {
	case int:
		use(x)
		return           // ERROR 3:E88
	}
	{
		const x = 1
		return           // ERROR 3:E88
	}
	return
}
