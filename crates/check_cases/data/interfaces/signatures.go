// Whether methods of one name have one signature: if not, the second that is embedded is refused.

package interfaces

type T int
type U = T
type a1 interface{ M(int) }
type a2 interface{ M(x int) }
type a3 interface{ M(uint) }
type a4 interface{ M(T) }
type a5 interface{ M(U) }
type a6 interface{ M(...int) }
type a7 interface{ M([]int) }
type a8 interface{ M() int }
type a9 interface{ M() (x int) }
type b1 interface{ M(chan int) }
type b2 interface{ M(<-chan int) }
type b3 interface{ M(struct{ a int }) }
type b4 interface{ M(struct { a int "t" }) }
type b5 interface{ M(func(int) string) }
type b6 interface{ M(func(y int) (z string)) }
type b7 interface{ M(interface{ N(); O() }) }
type b8 interface{ M(interface{ O(); N() }) }
type b9 interface{ M(byte, rune) }
type c1 interface{ M(uint8, int32) }
type c2 interface{ M([2]int) }
type c3 interface{ M([1 + 1]int) }
type c4 interface{ M([3]int) }
type c5 interface{ M(int, int) }
type c6 interface{ M(struct{ T }) }
type c7 interface{ M(struct{ T T }) }

type A1 interface{ a1; a2 }
type A2 interface{ a1; a3 } // ERROR 24:E14
type A3 interface{ a1; a4 } // ERROR 24:E14
type A4 interface{ a4; a5 }
type A5 interface{ a6; a7 } // ERROR 24:E14
type A6 interface{ a8; a9 }
type A7 interface{ a1; a8 } // ERROR 24:E14
type A8 interface{ b1; b2 } // ERROR 24:E14
type A9 interface{ b3; b4 } // ERROR 24:E14
type B1 interface{ b5; b6 }
type B2 interface{ b7; b8 }
type B3 interface{ b9; c1 }
type B4 interface{ c2; c3 }
type B5 interface{ c3; c4 } // ERROR 24:E14
type B6 interface{ a1; c5 } // ERROR 24:E14
type B7 interface{ c6; c7 } // ERROR 24:E14
type B8 interface{ M(a ...int); a6; a7 } // ERROR 37:E14
type B9 interface{ a1; a2; a3 } // ERROR 28:E14
