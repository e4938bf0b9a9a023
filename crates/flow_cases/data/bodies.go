// Bodies worked out by hand: those called y never return, those called n do. What can't be reached is judged by syntax, apart from that.
package a

// stops panic os.Exit

func y1() { // ERROR never returns
	panic("x")
}

func n1() {
}

func y2() { // ERROR never returns
	for { }
}

func n2() {
	for { break }
}

func y3() { // ERROR never returns
	for { switch c { case 1: break } }
}

func n3() {
	for c { }
}

func y4() { // ERROR never returns
	select { }
}

func n4() {
	select { case <-ch: }
}

func y5() { // ERROR never returns
	select { case <-ch: panic(1); default: os.Exit(1) }
}

func y6() { // ERROR never returns
	L6: for { for { continue L6 } }
}

func n6() {
	L6b: for { for { break L6b } }
}

func y7() { // ERROR never returns
	goto M7; M7: for { if c { goto M7 } }
}

// a goto that is never reached leads nowhere
func y7b() { // ERROR never returns
	panic(1)
	goto N7 // ERROR unreachable code
	N7:
	return
}

func y8() { // ERROR never returns
	for { _ = func() int { return 1 } }
}

func y9() { // ERROR never returns
	y1()
}

func n9() {
	if c { y1() }
}

// these wait for one another, and the least set has neither
func n10() {
	if c { y1() } else { n11() }
}

func n11() {
	n10()
}

func y12() { // ERROR never returns
	switch { case c: fallthrough; default: panic(1) }
}

func n12() {
	switch { case c: panic(1) }
}

func n13() {
	switch c { case 1: panic(1); default: if c { break }; panic(2) }
}

func y14() { // ERROR never returns
	if panic(1); c { return }
}

func n14() {
	for ; c; panic(1) { }
}

func y15() { // ERROR never returns
	for ;; panic(1) { }
}

func n16() {
	for ;; panic(1) { if c { break } }
}

func n17() {
	defer panic(1)
}

func n18() {
	go y1()
}

func y19() { // ERROR never returns
	for i := 0; ; i++ { if c { continue }; select { default: break } }
}

func n20() {
	for range x { panic(1) }
}

// a goto into a loop, which Go refuses, is decided too
func y21() { // ERROR never returns
	goto In
	for c { // ERROR unreachable code
	In:
	panic(1)
	}
}

func n22() {
	goto In2
	for c { // ERROR unreachable code
	In2:
	x()
	}
}

func n23() {
	x := y1; x()
}

func y24() { // ERROR never returns
	switch y1(); x := z.(type) { case int: return; default: _ = x }
}

func y25() { // ERROR never returns
	switch y1(); { case c: return }
}

func n26() {
	switch y1() { case 1: return }
}

func y27() { // ERROR never returns
	{ ; { y1() } } ; return
}

func (t T) n28() {
	t.n28()
}

func y29() int { // ERROR never returns
	panic(1)
	return 2 // ERROR unreachable code
}

func n30() {
	select { case <-ch: for { } ; case x := <-ch: }
}

func y31() { // ERROR never returns
	A: { goto A }
}

func n32() {
	A2: { break A2 }
}

func y33() { // ERROR never returns
	for { for { break } }
}

func n34() {
	for { if c { return } }
}

// x/tools passes a call in parentheses
func y35() { // ERROR never returns
	(os.Exit(1))
}

func y36() { // ERROR never returns
	for { select { case <-ch: break } }
}

func n36() {
	L36: for { select { case <-ch: break L36 } }
}

// a break that is never reached leaves nothing, but counts by syntax
func y37() { // ERROR never returns
	for {
	continue
	break // ERROR unreachable code
	}
	x()
}

func n38() {
	switch { case c: panic(1); default: goto N38 }
	panic(2) // ERROR unreachable code
	N38:
}

func y39() { // ERROR never returns
	switch { case a: fallthrough; case b: for { }; default: panic(1) }
}

func n39() {
	switch { case a: fallthrough; case b: ; default: panic(1) }
}

func y40() { // ERROR never returns
	switch x := y.(type) { case int: panic(x); default: for { } }
}

func n40() {
	switch x := y.(type) { case int: panic(x) }
}

func y41() { // ERROR never returns
	for i := 0; ; i++ { panic(i) }
}

func n41() {
	for i := 0; i < 3; i++ { panic(i) }
}

func n42() {
	L42: for { for { if c { return }; continue L42 } }
}

func y43() { // ERROR never returns
	defer func() { recover() }()
	for { return1 := func() int { return 1 }; return1() }
}

func n44() {
	func() { panic(1) }()
}

func n45() {
	var f = func() { for { } }
	f()
}

func y46() { // ERROR never returns
	select { case <-ch: goto M46; default: panic(1) }
	M46: // a label that a goto names is reached, by syntax too
	panic(2)
}

func n47() {
	if c { panic(1) } else if d { panic(2) }
}

func y47() { // ERROR never returns
	if c { panic(1) } else if d { panic(2) } else { panic(3) }
}
