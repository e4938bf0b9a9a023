// Package errs makes errors that hold another.
package errs

import "fmt"

type withText struct {
	error
	text string
}

func (w *withText) Error() string { return w.text + ": " + w.error.Error() }

// Wrapf prints a text around an error.
func Wrapf(err error, format string, args ...interface{}) error {
	return &withText{err, fmt.Sprintf(format, args...)}
}

// Errorf calls another that prints.
func Errorf(format string, args ...interface{}) error { return Wrapf(nil, format, args...) }

// Average has what no stub has as it is.
func Average(of ...int) float64 {
	sum := 0
	for _, n := range of {
		sum += n
	}
	return float64(sum) / float64(len(of))
}
