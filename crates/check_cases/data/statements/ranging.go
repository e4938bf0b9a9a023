// Range clauses.

package statements

type texts []string

type key string

type table map[key]bool

var (
	n     int
	s     string
	r     rune
	u     uint
	b     bool
	k     key
	any   interface{}
	list  []string
	grid  [3]uint
	pg    *[3]uint
	pl    *[]int
	ages  map[string]int
	tab   table
	ints  chan int
	outs  chan<- int
	ins   <-chan string
	p     *int
	f     func()
	lines texts
)

func two() ([]int, int)

func none()

func use(...interface{})

func operands() {
	for range n {        // ERROR 2:E79
	}
	for range 10 {       // ERROR 2:E79
	}
	for range b {        // ERROR 2:E79
	}
	for range p {        // ERROR 2:E79
	}
	for range pl {       // ERROR 2:E79
	}
	for range f {        // ERROR 2:E79
	}
	for range any {      // ERROR 2:E79
	}
	for range outs {     // ERROR 2:E79
	}
	for range struct{}{} { // ERROR 2:E79
	}
	for range nil {      // ERROR 12:E26
	}
	for range two() {    // ERROR 12:E25
	}
	for range none() {   // ERROR 12:E24
	}
	for range int {      // ERROR 12:E24
	}
	for range undefined { // ERROR 12:E3
	}
	for i := range n {   // ERROR 2:E79
		use(i)
	}
	for n = range b {    // ERROR 2:E79
	}
	for range list {
	}
	for range ints {
	}
}

func many() {
	for i, v := range ints { // ERROR 2:E80
		use(i, v)
	}
	for n, n = range ints { // ERROR 2:E80
	}
	for i, v := range ins { // ERROR 2:E80
		use(i, v)
	}
	for _ := range list { // ERROR 2:E8
	}
	for _, _ := range list { // ERROR 2:E8
	}
	for _ = range list {
	}
	for _, _ = range list {
	}
	for i, i := range list { // ERROR 9:E1 9:E6
		use(i)
	}
}

func assigned() {
	for s = range list { // ERROR 16:E32
	}
	for u = range list { // ERROR 16:E32
	}
	for n, n = range list { // ERROR 19:E32
	}
	for n, s = range grid { // ERROR 19:E32
	}
	for n, s = range s { // ERROR 19:E32
	}
	for n, r = range s {
	}
	for n = range ages { // ERROR 16:E32
	}
	for s, s = range ages { // ERROR 19:E32
	}
	for s = range tab {  // ERROR 16:E32
	}
	for k, b = range tab {
	}
	for s = range ints { // ERROR 16:E32
	}
	for n = range ins {  // ERROR 16:E32
	}
	for 1 = range list { // ERROR 6:E72
	}
	for n, two() = range list { // ERROR 9:E72
	}
	for s[0] = range list { // ERROR 6:E72
	}
	for any, any = range list {
	}
	for ages["a"] = range list {
	}
	for grid[0] = range list { // ERROR 22:E32
	}
	for _, s = range lines {
	}
}

func declared() {
	for i, v := range list {
		var a string = i // ERROR 18:E32
		var c int = v    // ERROR 15:E32
		use(a, c)
	}
	for i, v := range "text" {
		var a uint = i   // ERROR 16:E32
		var c byte = v   // ERROR 16:E32
		var d rune = v
		use(a, c, d)
	}
	for x, v := range pg {
		var a int = x
		var c int = v    // ERROR 15:E32
		use(a, c)
	}
	for x, v := range tab {
		var a string = x // ERROR 18:E32
		var c int = v    // ERROR 15:E32
		use(a, c)
	}
	for v := range ins {
		var a int = v    // ERROR 15:E32
		use(a)
	}
	for list := range list {
		var a int = list
		use(a)
	}
}
