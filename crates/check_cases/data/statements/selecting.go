// Select statements.

package statements

var (
	n    int
	s    string
	ok   bool
	ints chan int
	outs chan<- int
	ins  <-chan string
	list []int
)

func call() int

func use(...interface{})

func clauses() {
	select {
	case n:              // ERROR 7:E86
	case call():         // ERROR 7:E86
	case n = 1:          // ERROR 7:E86
	case n = call():     // ERROR 7:E86
	case x := n:         // ERROR 7:E86
		use(x)
	case -n:             // ERROR 7:E86
	case n <- 1:         // ERROR 7:E77
	case ins <- "a":     // ERROR 7:E77
	case ints <- "a":    // ERROR 15:E32
	case <-outs:         // ERROR 7:E78
	case <-n:            // ERROR 7:E78
	case s = <-ints:     // ERROR 11:E32
	case n, s = <-ints:  // ERROR 14:E32
	case 1 = <-ints:     // ERROR 7:E72
	case _ := <-ints:    // ERROR 7:E8
	case x, x := <-ints: // ERROR 10:E1 10:E6
		use(x)
	case undefined = <-ints: // ERROR 7:E3
	case <-ints:
	case (<-ints):
	case n = <-ints:
	case n, ok = <-ints:
	case list[0], ok = (<-ints):
	case x := <-ints:
		use(x)
	case x, ok := <-ins:
		use(x, ok)
	case outs <- n:
	default:
	}
	select {}
}
