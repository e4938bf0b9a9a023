// Conditions.

package statements

type truth bool

var (
	n    int
	s    string
	b    bool
	t    truth
	p    *int
	any  interface{}
	list []int
)

func ask() bool

func two() (bool, bool)

func none()

func ifs() {
	if n {               // ERROR 2:E76
	}
	if 1 {               // ERROR 2:E76
	}
	if "a" {             // ERROR 2:E76
	}
	if s {               // ERROR 2:E76
	}
	if p {               // ERROR 2:E76
	}
	if any {             // ERROR 2:E76
	}
	if list {            // ERROR 2:E76
	}
	if nil {             // ERROR 5:E26
	}
	if none() {          // ERROR 5:E24
	}
	if two() {           // ERROR 5:E25
	}
	if bool {            // ERROR 5:E24
	}
	if ask {             // ERROR 2:E76
	}
	if x := 1; x {       // ERROR 2:E76
	}
	if n + 1 {           // ERROR 2:E76
	}
	if undefined {       // ERROR 5:E3
	}
	if b {
	} else if n {        // ERROR 9:E76
	} else if t {
	}
	if x := ask(); x && b {
	}
	if n == 1 || t == true {
	}
}

func fors() {
	for n {              // ERROR 2:E76
	}
	for 1 {              // ERROR 2:E76
	}
	for s == "" && n {   // ERROR 6:E33
	}
	for i := 0; i; i++ { // ERROR 2:E76
	}
	for i := 0; i < 3; i += "a" { // ERROR 21:E33
	}
	for ; nil; {         // ERROR 8:E26
	}
	for ; ; n = "a" {    // ERROR 14:E32
	}
	for ; ; n {          // ERROR 10:E70
	}
	for ; two(); {       // ERROR 8:E25
	}
	for t {
	}
	for i, j := 0, 1; i < j; i, j = i+1, j-1 {
	}
	for {
	}
}
