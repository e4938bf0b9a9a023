package p // _v/v.go
