package p // a/b.go
