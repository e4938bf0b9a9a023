// Bodies with results end in a terminating statement, in nested functions too.

package bodies

var (
	n    int
	b    bool
	any  interface{}
	ints chan int
	list []int
)

func call() int

func use(...interface{})

func loops1() int {
	for {
	}
}

func loops2() int {
	for ; ; n++ {
	}
}

func loops3() int {
	for true {
	}
}                           // ERROR 1:E89

func loops4() int {
	for ; true; {
	}
}                           // ERROR 1:E89

func loops5() int {
	for {
		switch n {
		case 1:
			break
		}
		select {
		default:
			break
		}
		for {
			break
		}
		func() {
			for {
				break
			}
		}()
	}
}

func loops6() int {
	for {
		if b {
			{
				break
			}
		}
	}
}                           // ERROR 1:E89

func loops7() int {
A:
	for {
		switch n {
		case 1:
			break A
		}
	}
}                           // ERROR 1:E89

func loops8() int {
A:
	for {
		continue A
	}
}

func loops9() int {
A:
	for {
	B:
		for {
			break B
		}
		goto A
	}
}

func loops10() int {
	for range list {
		return 1
	}
}                           // ERROR 1:E89

func loops11() int {
A:
	for {
		for range list {
			select {
			case <-ints:
				break A
			}
		}
	}
}                           // ERROR 1:E89

func loops12() int {
	for {
	}
	for {
		break
	}
}                           // ERROR 1:E89

func switches1() int {
	switch {
	default:
		return 1
	case b:
		panic(1)
	}
}

func switches2() int {
	switch {
	}
}                           // ERROR 1:E89

func switches3() int {
	switch {
	default:
	}
}                           // ERROR 1:E89

func switches4() int {
	switch n {
	case 1:
		fallthrough
	case 2:
		if b {
			return 1
		} else {
			return 2
		}
	default:
		goto A
	}
A:
	return 1
}

func switches5() int {
	switch n {
	case 1:
		if b {
			break
		}
		return 1
	default:
		return 2
	}
}                           // ERROR 1:E89

func switches6() int {
A:
	switch n {
	default:
		for {
			if b {
				break A
			}
		}
	}
}                           // ERROR 1:E89

func switches7() int {
	switch n {
	default:
		for {
			break
		}
		return 1
	}
}

func switches8() int {
	switch n := call(); n {
	case 1:
		return 1
	default:
		{
			return 2
		}
	}
}

func switches9() int {
	switch any.(type) {
	default:
		return 1
	case int, string:
		for {
		}
	}
}

func switches10() int {
	switch x := any.(type) {
	default:
		break
	case int:
		return x
	}
}                           // ERROR 1:E89

func switches11() int {
	switch any.(type) {
	case int:
		return 1
	case nil:
		return 2
	}
}                           // ERROR 1:E89

func selects1() int {
	select {
	case <-ints:
		return 1
	case ints <- 1:
		panic(1)
	}
}

func selects2() int {
	select {
	case <-ints:
		return 1
	default:
		call()
	}
}                           // ERROR 1:E89

func selects3() int {
A:
	select {
	case <-ints:
		for {
			break A
		}
	}
}                           // ERROR 1:E89

func selects4() int {
	select {
	case <-ints:
		select {}
	}
}

func conditions1() int {
	if b {
		return 1
	} else if n == 1 {
		panic(1)
	} else {
		for {
		}
	}
}

func conditions2() int {
	if true {
		return 1
	}
}                           // ERROR 1:E89

func conditions3() int {
	if b {
		return 1
	} else {
	}
}                           // ERROR 1:E89

func conditions4() int {
	if b {
		call()
	} else {
		return 1
	}
}                           // ERROR 1:E89

func conditions5() int {
	if b {
		if b {
			return 1
		} else {
			return 2
		}
	} else if b {
		return 3
	}
}                           // ERROR 1:E89

func labels1() int {
A:
	return 1
B:
	goto A
C:
	goto B
D:
	goto C
E:
	{
		goto D
	}
	goto E
}

func labels2() int {
A:
	{
		goto A
	}
}

func labels3() int {
A:
B:
	for {
		goto A
		continue B
	}
}

func labels4() int {
	goto A
A:
}                           // ERROR 1:E89

func calls1() int {
	panic("a")
}

func calls2() int {
	(panic("a"))
}

func calls3() int {
	panic := func(interface{}) {}
	panic("a")
}                           // ERROR 1:E89

func calls4() int {
	defer panic("a")
}                           // ERROR 1:E89

func calls5() int {
	call()
}                           // ERROR 1:E89

func calls6() int {
	func() int { return 1 }()
}                           // ERROR 1:E89

func calls7() int {
	{
		panic := call
		use(panic)
	}
	panic(1)
}

func calls8(panic func()) int {
	panic()
}                           // ERROR 1:E89

func declared() int {
	const c = 1
	var x = 1
	use(x)
}                           // ERROR 1:E89

func empty() int {
	return 1
	{
	}
}                           // ERROR 1:E89

func named() (x int) {
	x = 1
}                           // ERROR 1:E89

func none() {
}

func literals() {
	use(func() int { })     // ERROR 19:E89
	use(func() int { call(); }) // ERROR 27:E89
	use(func() (int, error) {
		func() int {
			return 1
		}()
	})                      // ERROR 2:E89
	f := func() int {
		for {
		}
	}
	g := func() int {
		if b {
			return 1
		}
	}                       // ERROR 2:E89
	use(f, g, func() {})
	func() int {
		func() int { panic(1) }()
	}()                     // ERROR 2:E89
}

type number int

func (number) m1() int {
}                           // ERROR 1:E89

func (n *number) m2() (int, bool) {
	switch {
	case b:
		return 1, true
	}
}                           // ERROR 1:E89

func twice() int { return 1; ; }

func inOneLine() int { for { break } } // ERROR 38:E89
