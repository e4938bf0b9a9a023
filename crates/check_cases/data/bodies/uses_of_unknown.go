// Not for go/types: of a literal whose type isn't known it takes a name before a colon as no use.

package bodies

func use(...interface{})

func keys() {
	x := 1
	use(unknown{x: 1})      // ERROR 6:E3
	y := 1                  // ERROR 2:E6
	use(unknown{x: 1})      // ERROR 6:E3
}
