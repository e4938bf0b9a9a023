package p // testdata/u.go
