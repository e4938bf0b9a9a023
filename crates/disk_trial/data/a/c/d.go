package p // a/c/d.go
