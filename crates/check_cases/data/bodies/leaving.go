// break, continue and fallthrough: what they leave, or where they lead.

package bodies

var (
	n    int
	b    bool
	any  interface{}
	ints chan int
	list []int
)

func call()

func use(...interface{})

func plain() {
	break                   // ERROR 2:E95
	continue                // ERROR 2:E95
	if b {
		break               // ERROR 3:E95
	} else {
		continue            // ERROR 3:E95
	}
	{
		break               // ERROR 3:E95
		continue            // ERROR 3:E95
	}
	for {
		break
		continue
	}
	for range list {
		break
		continue
	}
	for i := 0; i < 1; i++ {
		if b {
			break
		}
		{
			continue
		}
	}
	switch n {
	case 1:
		break
	default:
		continue            // ERROR 3:E95
	}
	switch any.(type) {
	case int:
		break
	case string:
		continue            // ERROR 3:E95
	}
	select {
	case <-ints:
		break
	default:
		continue            // ERROR 3:E95
	}
	for {
		switch {
		case b:
			continue
		}
		select {
		default:
			continue
		}
	}
	if b {
		for {
		}
		break               // ERROR 3:E95
	}
	break                   // ERROR 2:E95
	switch {
	}
	continue                // ERROR 2:E95
}

func literals() {
	for {
		func() {
			break           // ERROR 4:E95
			continue        // ERROR 4:E95
			for {
				break
				continue
			}
		}()
	}
	switch n {
	case 1:
		defer func() { break }() // ERROR 18:E95
	}
	use(func() {
		switch n {
		default:
			break
		}
	})
	for use(func() { break }); ; { // ERROR 19:E95
	}
}

func named() {
A:
	for {
		for {
			break A
			continue A
		}
		switch n {
		case 1:
			break A
			continue A
		}
		select {
		default:
			break A
			continue A
		}
		if b {
			break A
		}
	}
B:
	switch n {
	case 1:
		for {
			break B
			continue B      // ERROR 4:E95
		}
	}
C:
	switch any.(type) {
	default:
		for {
			break C
			continue C      // ERROR 4:E95
		}
	}
D:
	select {
	case <-ints:
		for {
			break D
			continue D      // ERROR 4:E95
		}
	}
E:
	{
		for {
			break E         // ERROR 4:E95
			continue E      // ERROR 4:E95
			goto E
		}
	}
F:
	if b {
		for {
			break F         // ERROR 4:E95
			continue F      // ERROR 4:E95
			goto F
		}
	}
G:
	for range list {
		break G
		continue G
	}
	for {
		break H             // ERROR 3:E95
		continue H          // ERROR 3:E95
	}
H:
	for {
		break H
	}
I:
J:
	for {
		break I             // ERROR 3:E95
		continue I          // ERROR 3:E95
		break J
		continue J
		goto I
	}
K:
	call()
	for {
		break K             // ERROR 3:E95
		goto K
	}
L:
	for {
	M:
		for {
			continue L
			break M
		}
		break M             // ERROR 3:E95
	}
	break N                 // ERROR 8:E90
	continue N              // ERROR 11:E90
	for {
		break N             // ERROR 9:E90
		continue N          // ERROR 12:E90
	}
}

func falls() {
	switch n {
	case 1:
		fallthrough
	default:
		call()
		fallthrough
	case 2:
		fallthrough
	case 3, 4:
		fallthrough
	case 5:
		goto A
	A:
		fallthrough
	case 6:
		if b {
			goto A2         // ERROR 9:E90
		}
		fallthrough         // ERROR 3:E96
		call()
	case 7:
		if b {
			fallthrough     // ERROR 4:E96
		}
	case 8:
		{
			fallthrough     // ERROR 4:E96
		}
	case 9:
		for {
			fallthrough     // ERROR 4:E96
		}
	case 10:
		func() {
			fallthrough     // ERROR 4:E96
		}()
	case 11:
		fallthrough         // ERROR 3:E96
		call()
	case 12:
		fallthrough         // ERROR 3:E96
		fallthrough
	case 13:
		switch n {
		case 1:
			fallthrough
		case 2:
			fallthrough     // ERROR 4:E96
		}
		fallthrough
	case 14:
		select {
		default:
			fallthrough     // ERROR 4:E96
		}
	case 15:
		if n := 1; n > 0 {
			goto B
		}
	B:
		fallthrough
	case 16:
		fallthrough         // ERROR 3:E96
	}
	switch {
	case b:
		fallthrough
	default:
		fallthrough         // ERROR 3:E96
	}
	switch {
	default:
		fallthrough
	case b:
	}
	switch any.(type) {
	case int:
		fallthrough         // ERROR 3:E96
	case string:
		call()
		fallthrough         // ERROR 3:E96
	default:
	}
	select {
	case <-ints:
		fallthrough         // ERROR 3:E96
	default:
	}
	if b {
		fallthrough         // ERROR 3:E96
	}
	fallthrough             // ERROR 2:E96
}
