// Tool calls what the other packages have.
package main

import (
	"flag"
	"fmt"
	"os"

	"example.com/shop/kit"
	"example.com/shop/kit/inner"
	"example.com/shop/rate"
)

var size = flag.Int("size", 3, "how many")

func main() {
	var s kit.Server
	t := s
	_ = t.Name()
	inner.F(os.Stdout, nil, *size, 0)
	fmt.Printf("%.2f %d\n", rate.Of(1, *size), "size")
}
