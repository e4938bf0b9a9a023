// Statements that the specification shows, and programs of some length.

package accepted

// "Terminating statements" to "Labeled statements", "Expression statements"

func log(...interface{})

func cond() bool

func h(int) int

type file struct{ open bool }

func (f *file) Close() error { f.open = false; return nil }

func expressions(ch chan int, f *file) {
	h(1 + 2)
	f.Close()
	<-ch
	(<-ch)
	ch <- 3
}

// "IncDec statements", "Assignments"

func assignments(x, y int, a []int, p *int, f func() int, ch chan int) (s string) {
	x = 1
	*p = f()
	a[x] = 23
	(y) = <-ch
	a[x] <<= 2
	x &^= 1<<uint(y) - 1
	x, y = y, x
	one, two, three := '1', '2', '3'
	_ = one
	_, two = two, three
	_ = x
	x, _ = three2()
	i := 0
	i, a[i] = 1, 2
	a[0], a[0] = 1, 2
	a[1], a[2] = 4, 5
	var b [3]int
	b = [3]int{1, 2, 3}
	i, b[i] = 2, 6
	for i, a[i] = range a {
		break
	}
	x++
	a[x]--
	m := map[string]int{}
	m["a"]++
	m["b"] += 2
	s += "a"
	return
}

func three2() (int, string) { return 3, "" }

// "If statements", "Switch statements"

func conditions(x, y, z, max, tag int) int {
	if x > max {
		x = max
	}
	if x := h(y); x < y {
		return x
	} else if x > z {
		return z
	} else {
		return y
	}
}

func switches(x, y, z, tag int) int {
	switch tag {
	default:
		x++
	case 0, 1, 2, 3:
		y++
	case 4, 5, 6, 7:
		z++
	}
	switch x := h(x); {
	case x < 0:
		return -x
	default:
		return x
	}
}

func kinds(x interface{}, f func() interface{}) int {
	switch i := x.(type) {
	case nil:
		log(i == nil)
	case int:
		return i
	case func(int) string:
		log(i(1))
	case bool, string:
		log(i)
	default:
		log("don't know the type")
	}
	switch f := f().(type) {
	case error:
		log(f.Error())
	}
	switch x.(type) {
	}
	return 0
}

// "For statements"

func loops(a, b int, key string) {
	for a < b {
		a *= 2
	}
	for i := 0; i < 10; i++ {
		h(i)
	}
	for cond() {
	}
	var testdata *struct {
		a *[7]int
	}
	for i := range testdata.a {
		h(i)
	}
	var c [10]string
	for i, s := range c {
		h(i)
		log(s)
	}
	var val interface{}
	m := map[string]int{"mon": 0, "tue": 1}
	for key, val = range m {
	}
	log(key, val)
	var ch chan int
	for w := range ch {
		h(w)
	}
	for range ch {
	}
	for _, c := range "text" {
		var r rune = c
		log(r)
	}
}

// "Go statements", "Select statements", "Defer statements"

func server(ch chan bool) { ch <- true }

func selects(c, c1, c2, c3, c4 chan int, a []int) {
	var i1, i2 int
	go server(make(chan bool))
	go func(ch chan<- bool) {
		for {
			ch <- true
		}
	}(make(chan bool))
	select {
	case i1 = <-c1:
		log("received ", i1)
	case c2 <- i2:
		log("sent ", i2)
	case i3, ok := (<-c3):
		if ok {
			log(i3)
		} else {
			log("closed")
		}
	case a[h(1)] = <-c4:
	default:
		log("no communication")
	}
	for {
		select {
		case c <- 0:
		case c <- 1:
		}
	}
}

func deferred() (result int) {
	defer func() {
		result *= 7
	}()
	for i := 0; i <= 3; i++ {
		defer log(i)
	}
	defer recover()
	return 6
}

// "Return statements"

func simple() int { return 2 }

func complex1() (re int, im int) { return -7, -4 }

func complex2() (re int, im int) { return complex1() }

func complex3() (re int, im int) {
	re = 7
	im = 4
	return
}

func (file) Write(p []byte) (n int, _ error) {
	n = len(p)
	return
}

// "Break statements" to "Fallthrough statements"

func jumps(rows [][]int, state, n int) {
OuterLoop:
	for i := range rows {
		for j := range rows[i] {
			switch rows[i][j] {
			case 0:
				state = 1
				break OuterLoop
			case 1:
				state = 2
				continue OuterLoop
			}
		}
	}
	if n%2 == 1 {
		goto L1
	}
	for n > 0 {
		n--
	}
L1:
	n--
	switch state {
	case 1:
		fallthrough
	default:
	}
}

// "Variable declarations", "Short variable declarations", "Blocks"

func shorts(p []int) {
	i, j := 0, 10
	f := func() int { return 7 }
	ch := make(chan int)
	r, w := two(1)
	_, y := two(2)
	field1, offset := two(3)
	field2, offset := two(offset)
	{
		i := "inner"
		log(i)
	}
	log(i, j, f, ch, r, w, y, field1, field2)
	var d = 2
	var t struct{ d int }
	t.d = d
	type local struct {
		next *local
		vals [4]int
	}
	var l local
	l.next = &local{vals: [4]int{1}}
	l.next.vals[1]++
	const size = len(l.vals)
	var grid [size][size]int
	grid[size-1][0] = size
}

func two(n int) (int, int) { return n, n }

// A heap, a list, a sorter and a reader of numbers.

type sorter interface {
	Len() int
	Less(i, j int) bool
	Swap(i, j int)
}

type numbers []int

func (x numbers) Len() int           { return len(x) }
func (x numbers) Less(i, j int) bool { return x[i] < x[j] }
func (x numbers) Swap(i, j int)      { x[i], x[j] = x[j], x[i] }

func (x *numbers) push(v interface{}) { *x = append(*x, v.(int)) }

func (x *numbers) pop() interface{} {
	old := *x
	n := len(old)
	last := old[n-1]
	*x = old[:n-1]
	return last
}

func insertion(data sorter, a, b int) {
	for i := a + 1; i < b; i++ {
		for j := i; j > a && data.Less(j, j-1); j-- {
			data.Swap(j, j-1)
		}
	}
}

func siftDown(data sorter, lo, hi, first int) {
	root := lo
	for {
		child := 2*root + 1
		if child >= hi {
			return
		}
		if child+1 < hi && data.Less(first+child, first+child+1) {
			child++
		}
		if !data.Less(first+root, first+child) {
			return
		}
		data.Swap(first+root, first+child)
		root = child
	}
}

type element struct {
	next, prev *element
	list       *list2
	value      interface{}
}

type list2 struct {
	root element
	len  int
}

func (l *list2) init() *list2 {
	l.root.next = &l.root
	l.root.prev = &l.root
	l.len = 0
	return l
}

func (l *list2) insert(e, at *element) *element {
	e.prev = at
	e.next = at.next
	e.prev.next = e
	e.next.prev = e
	e.list = l
	l.len++
	return e
}

func (l *list2) each(do func(*element) bool) {
	for e := l.root.next; e != nil && e != &l.root; e = e.next {
		if !do(e) {
			break
		}
	}
}

type syntaxError struct {
	text string
	at   int
}

func (e *syntaxError) Error() string { return e.text + " in " + string(rune('0'+e.at)) }

func parse(s string, base int) (n uint64, err error) {
	if s == "" {
		return 0, &syntaxError{"empty", 0}
	}
	defer func() {
		if r := recover(); r != nil {
			if e, ok := r.(error); ok {
				err = e
				return
			}
			panic(r)
		}
	}()
	const maximum = 1<<63 - 1
	var cutoff uint64
	switch base {
	case 10:
		cutoff = maximum/10 + 1
	case 16:
		cutoff = maximum/16 + 1
	default:
		cutoff = maximum/uint64(base) + 1
	}
	for i, c := range []byte(s) {
		var d byte
		switch {
		case c == '_':
			continue
		case '0' <= c && c <= '9':
			d = c - '0'
		case 'a' <= c|0x20 && c|0x20 <= 'z':
			d = c|0x20 - 'a' + 10
		default:
			return n, &syntaxError{s, i}
		}
		if int(d) >= base || n >= cutoff {
			return n, &syntaxError{text: s, at: i}
		}
		n *= uint64(base)
		n += uint64(d)
	}
	return n, nil
}

type tree struct {
	left, right *tree
	key         string
	count       int
}

func (t *tree) insert(key string) *tree {
	if t == nil {
		return &tree{key: key, count: 1}
	}
	switch {
	case key < t.key:
		t.left = t.left.insert(key)
	case key > t.key:
		t.right = t.right.insert(key)
	default:
		t.count++
	}
	return t
}

func (t *tree) walk(do func(key string, count int) error) error {
	if t == nil {
		return nil
	}
	if err := t.left.walk(do); err != nil {
		return err
	}
	if err := do(t.key, t.count); err != nil {
		return err
	}
	return t.right.walk(do)
}

func words(text string) (counts map[string]int, longest string) {
	counts = make(map[string]int)
	start := -1
	for i, r := range text {
		letter := r >= 'a' && r <= 'z' || r >= 'A' && r <= 'Z'
		if letter && start < 0 {
			start = i
		} else if !letter && start >= 0 {
			word := text[start:i]
			counts[word]++
			if len(word) > len(longest) {
				longest = word
			}
			start = -1
		}
	}
	if start >= 0 {
		counts[text[start:]]++
	}
	return
}

func pipeline(in <-chan int, workers int) <-chan int {
	out := make(chan int, workers)
	done := make(chan struct{})
	for w := 0; w < workers; w++ {
		go func() {
			defer func() { done <- struct{}{} }()
			for v := range in {
				select {
				case out <- v * v:
				}
			}
		}()
	}
	go func() {
		for w := workers; w > 0; w-- {
			<-done
		}
		close(out)
	}()
	return out
}
