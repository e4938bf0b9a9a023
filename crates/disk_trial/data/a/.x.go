package p // a/.x.go
