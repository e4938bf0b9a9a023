// Not for go/types: its parser refuses these.
package types

type A = chan int

// What an arrow goes to is a `chan` without one, as it is written.

var a1 = make(<-<-chan int) // ERROR 17:E24

var a2 = make(<-chan<- int) // ERROR 15:E10

var a3 = make(<-chan<- (chan int)) // ERROR 15:E10

var a4 = make(<-chan<- A) // ERROR 15:E10

var a5 = make(<-chan<- <-chan int) // ERROR 15:E10

var a6 = make(<-chan<- chan<- int) // ERROR 15:E10

var a7 = <-(chan int) // ERROR 12:E24

var a8 = make(<-(chan int)) // ERROR 17:E24
