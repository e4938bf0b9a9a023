// Send statements, go and defer, and expressions as statements.

package statements

type pipe chan int

var (
	n    int
	s    string
	any  interface{}
	ints chan int
	outs chan<- int
	ins  <-chan int
	errs chan error
	p    pipe
	list []int
	ages map[string]int
	f    func()
)

func call()

func two() (int, int)

func result() int

func send() {
	n <- 1               // ERROR 2:E77
	s <- "a"             // ERROR 2:E77
	list <- 1            // ERROR 2:E77
	ins <- 1             // ERROR 2:E77
	nil <- 1             // ERROR 2:E26
	any <- 1             // ERROR 2:E77
	ints <- "a"          // ERROR 10:E32
	ints <- nil          // ERROR 10:E32
	outs <- s            // ERROR 10:E32
	errs <- n            // ERROR 10:E32
	p <- 1 << 70         // ERROR 7:E32
	ints <- two()        // ERROR 10:E25
	ints <- call()       // ERROR 10:E24
	call() <- 1          // ERROR 2:E24
	ints <- 1
	outs <- n
	errs <- nil
	p <- 'a'
	ints <- <-ins
}

func start() {
	go int(n)            // ERROR 2:E71
	go len(s)            // ERROR 2:E71
	go append(list, 1)   // ERROR 2:E71
	go new(int)          // ERROR 2:E71
	go make([]int, 1)    // ERROR 2:E71
	go undefined()       // ERROR 5:E3
	defer string(n)      // ERROR 2:E71
	defer cap(list)      // ERROR 2:E71
	go call()
	go result()
	go two()
	go func() {}()
	go panic("a")
	defer print(n)
	defer recover()
	defer copy(list, list)
	defer delete(ages, "a")
	defer close(ints)
}

func stand() {
	n                    // ERROR 2:E70
	1                    // ERROR 2:E70
	"a"                  // ERROR 2:E70
	n + 1                // ERROR 2:E70
	-n                   // ERROR 2:E70
	&n                   // ERROR 2:E70
	n == 1               // ERROR 2:E70
	list[0]              // ERROR 2:E70
	list[1:]             // ERROR 2:E70
	any.(int)            // ERROR 2:E70
	call                 // ERROR 2:E70
	nil                  // ERROR 2:E70
	int                  // ERROR 2:E70
	[]int{1}             // ERROR 2:E70
	func() {}            // ERROR 2:E70
	int(n)               // ERROR 2:E70
	(int)(n)             // ERROR 2:E70
	(int(n))             // ERROR 2:E70
	len(s)               // ERROR 2:E70
	cap(list)            // ERROR 2:E70
	append(list, 1)      // ERROR 2:E70
	make([]int, 1)       // ERROR 2:E70
	new(int)             // ERROR 2:E70
	(len(s))             // ERROR 2:E70
	len                  // ERROR 2:E56
	panic                // ERROR 2:E56
	undefined            // ERROR 2:E3
	list["a"]            // ERROR 2:E42
	call()
	two()
	(result())
	f()
	<-ints
	(<-ints)
	print(n)
	copy(list, list)
	panic("a")
	recover()
	func() {}()
}

func headers() {
	if n; true {         // ERROR 5:E70
	}
	switch n; {          // ERROR 9:E70
	}
	for n; ; {           // ERROR 6:E70
	}
L:
	n                    // ERROR 2:E70
	for call(); ; call() {
		break
	}
	goto L
}
