// Not for go/types: what go/parser refuses itself, `go` and `defer` without a call.

package statements

var (
	n    int
	ints chan int
)

func call()

func start() {
	go call              // ERROR 2:E71
	go n + 1             // ERROR 2:E71
	go func() {}         // ERROR 2:E71
	go <-ints            // ERROR 2:E71
	defer call           // ERROR 2:E71
	defer n              // ERROR 2:E71
	defer nil            // ERROR 2:E71
	go (call())          // ERROR 2:E71
	defer (call())       // ERROR 2:E71
	go int               // ERROR 2:E71
	defer len            // ERROR 2:E71
	go call()
}
