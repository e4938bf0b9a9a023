package p // vendor/x/w.go
