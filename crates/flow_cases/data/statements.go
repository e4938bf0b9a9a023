// Statements that can't be reached, by the rules: what stands before them in their list is judged by syntax alone.
package a

// stops panic

func emptyStatement() {
	return
	;
	x() // ERROR unreachable code
}

// what can't be reached counts as reachable for those behind it
func onceOnly() { // ERROR never returns
	for {
	}
	x() // ERROR unreachable code
	x()
	return
	x() // ERROR unreachable code
}

// parentheses make no call of panic here, though the function never returns
func parentheses() { // ERROR never returns
	(panic(1))
	x()
}

func calleeInParentheses() { // ERROR never returns
	(panic)(1)
	x()
}

func spread() { // ERROR never returns
	panic(x...)
	x() // ERROR unreachable code
}

// of a statement with two labels only the first counts
func twoLabels() {
	goto L2
L1: // ERROR unreachable code
L2:
	x()
}

func firstLabel() {
	goto L1
L1:
L2:
	x()
}

// a break counts wherever it stands
func breakCounts() {
	for {
		return
		break // ERROR unreachable code
	}
	x()
}

func breakOfLabel() {
L:
	for {
		switch {
		case c:
			break L
		}
	}
	x()
}

// a break of an inner statement leaves no outer one
func breakOfInner() { // ERROR never returns
	for {
		switch {
		case c:
			break
		}
	}
	x() // ERROR unreachable code
}

// a block can't be left by a break, which Go refuses
func breakOfBlock() {
L:
	{
		return
		break L // ERROR unreachable code
	}
	x() // ERROR unreachable code
}

// a goto counts wherever it stands
func gotoCounts() {
	return
	goto L // ERROR unreachable code
L:
	x()
}

func fallthroughs() {
	switch {
	case c:
		fallthrough
	default:
		return
	}
	x() // ERROR unreachable code
}

func noDefault() {
	switch {
	case c:
		return
	}
	x()
}

func emptyClause() {
	switch {
	case c:
	default:
		return
	}
	x()
}

func typeSwitch() {
	switch x := y.(type) {
	case int:
		return
	default:
		panic(x)
	}
	z() // ERROR unreachable code
}

func selects() {
	select {
	case <-ch:
		return
	}
	x() // ERROR unreachable code
}

func selectWithoutCases() { // ERROR never returns
	select {}
	x() // ERROR unreachable code
}

func selectLeft() {
	select {
	case <-ch:
		break
	}
	x()
}

// lists of clauses are lists too
func inClauses() {
	switch {
	case c:
		return
		x() // ERROR unreachable code
	default:
		panic(1)
		x() // ERROR unreachable code
	}
	select {
	case <-ch:
		goto L
		x() // ERROR unreachable code
	}
L:
}

// a literal has lists of its own, and so has what holds it
func literal() {
	_ = func() {
		return
		x() // ERROR unreachable code
	}
	x()
}

// a label of another function isn't named
func labelOfAnother() {
	_ = func() {
		goto L
	L:
	}
	return
L: // ERROR unreachable code
	x()
}

func elseIf() int {
	if c {
		return 1
	} else if d {
		return 2
	} else {
		return 3
	}
	x() // ERROR unreachable code
}

func noElse() int {
	if c {
		return 1
	} else if d {
		return 2
	}
	x()
}

func ranges() {
	for range xs {
		return
	}
	x()
}

func forClause() { // ERROR never returns
	for i := 0; ; i++ {
	}
	x() // ERROR unreachable code
}

func forCondition() {
	for c {
		return
	}
	x()
}

func continues() {
	for c {
		continue
		x() // ERROR unreachable code
	}
}

func labeledLoop() { // ERROR never returns
L:
	for {
		continue L
	}
	x() // ERROR unreachable code
}

func labelAtTheEnd() {
	goto L
	x() // ERROR unreachable code
L:
}

func (t T) method() {
	{
		return
	}
	x() // ERROR unreachable code
}
