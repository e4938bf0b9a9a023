package p // a/testdata/t.go
