package stop

import "os"

func Now(code int) { os.Exit(code) }

func Unless(fine bool) {
	if !fine {
		Now(1)
	}
}
