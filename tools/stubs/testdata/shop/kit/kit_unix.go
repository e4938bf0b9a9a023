//go:build linux || darwin
// +build linux darwin

package kit

func system() string { return string(65 + len("unix")) }
