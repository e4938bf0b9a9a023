// Terminating statements.

package bodies

var (
	n   int
	b   bool
	any interface{}
	ch  chan int
)

func call() int

func f1() int {
}                        // ERROR 1:E89

func f2() int {
	call()
}                        // ERROR 1:E89

func f3() int {
	if b {
		return 1
	}
}                        // ERROR 1:E89

func f4() int {
	if b {
		return 1
	} else if n == 1 {
		return 2
	}
}                        // ERROR 1:E89

func f5() int {
	for b {
		return 1
	}
}                        // ERROR 1:E89

func f6() int {
	for {
		break
	}
}                        // ERROR 1:E89

func f7() int {
	for {
		for {
			break
		}
	}
}

func f8() int {
L:
	for {
		for {
			break L
		}
	}
}                        // ERROR 1:E89

func f9() int {
	for range ch {
		return 1
	}
}                        // ERROR 1:E89

func f10() int {
	for i := 0; ; i++ {
	}
}

func f11() int {
	for i := 0; i < 3; i++ {
	}
}                        // ERROR 1:E89

func f12() int {
	switch n {
	case 1:
		return 1
	}
}                        // ERROR 1:E89

func f13() int {
	switch n {
	case 1:
		return 1
	default:
		return 2
	}
}

func f14() int {
	switch n {
	case 1:
		break
	default:
		return 2
	}
}                        // ERROR 1:E89

func f15() int {
	switch n {
	case 1:
		fallthrough
	case 2:
		return 1
	default:
		panic("a")
	}
}

func f16() int {
	switch n {
	case 1:
	default:
		return 1
	}
}                        // ERROR 1:E89

func f17() int {
	switch any.(type) {
	case int:
		return 1
	default:
		return 2
	}
}

func f18() int {
	switch any.(type) {
	case int:
		return 1
	}
}                        // ERROR 1:E89

func f19() int {
	select {
	case <-ch:
		return 1
	}
}

func f20() int {
	select {}
}

func f21() int {
	select {
	case <-ch:
		break
	default:
		return 1
	}
}                        // ERROR 1:E89

func f22() int {
	select {
	case <-ch:
	default:
		return 1
	}
}                        // ERROR 1:E89

func f23() int {
L:
	goto L
}

func f24() int {
	{
		return 1
	}
}

func f25() int {
	{
	}
}                        // ERROR 1:E89

func f26() int {
	panic("a")
}

func f27() int {
	panic := call
	panic()
}                        // ERROR 1:E89

func f28() int {
	go panic("a")
}                        // ERROR 1:E89

func f29() int {
	return 1
	;
}

func f30() int {
	return 1
	call()
}                        // ERROR 1:E89

func f31() int {
	return func() int {
	}()                  // ERROR 2:E89
}

func f32() (x int) {
	x = 1
}                        // ERROR 1:E89

func f33() int {
	if b {
		return 1
	} else {
		return 2
	}
}

func f34() int {
L:
	switch n {
	default:
		for {
			break L
		}
	}
}                        // ERROR 1:E89

func f35() {
}

func f36() int {
	for b := true; ; {
		_ = b
	}
}

type T int

func (t T) m() int {
	if t > 0 {
		return 1
	}
}                        // ERROR 1:E89
