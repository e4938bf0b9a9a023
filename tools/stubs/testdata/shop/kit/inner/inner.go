// Package inner has a fault for each of the other analyzers.
package inner

import (
	"fmt"
	"io"
	"sort"
)

type point struct {
	X int `json:"x"`
	y int `json:"y"`
	Z int `json:"x"`
}

// F does nothing that is of use.
func F(w io.Writer, x []string, a, b int) (n int) {
	if a != 1 || a != 2 {
		x[0] = x[0]
	}
	if sort.Strings == nil {
		return
	}
	fmt.Sprintf("%d", a)
	fmt.Fprintf(w, "%z %-010d", a, b)
	return
	return n
}
