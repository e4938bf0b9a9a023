package selectors

type C chan int

var c chan int

var deep chan (<-chan int)

var inner chan (chan<- int)

// An arrow goes to the leftmost `chan`, and that of a `chan<-` on to its element.

var a1 = make(<-chan<- chan int)

var a2 = make(<-chan<- chan<- chan int)

var a3 <-chan (<-chan int) = a1

var a4 <-chan chan<- int = a1 // ERROR 28:E32

var a5 <-chan (<-chan (<-chan int)) = a2

var a6 <-chan (<-chan chan<- int) = a2 // ERROR 37:E32

var b1 = (<-chan<- chan int)(deep)

var b2 = (<-chan<- chan int)(inner) // ERROR 10:E53

var b3 = (<-chan int)(c)

var b4 = (<-chan chan int)(deep) // ERROR 10:E53

var d1 *<-chan (<-chan C) = new(<-chan<- chan C)

var d2 = []<-chan<- chan int{a1, deep}

var d3 = *(*<-chan<- chan int)(nil)

var d4 <-chan (<-chan int) = d3

var d5 interface{} = a1

var d6 <-chan (<-chan int) = d5.(<-chan<- chan int)

var d7 func(<-chan (<-chan int)) = func(<-chan<- chan int) {}

// Before another operand it receives.

var e1 int = <-chan int(c)

var e2 int = <-<-a1

var e3 = (chan<- chan int)(nil)

var e4 <-chan (<-chan int) = e3 // ERROR 30:E32

var e5 = <-C // ERROR 12:E24

var e6 = make(<-C) // ERROR 17:E24
