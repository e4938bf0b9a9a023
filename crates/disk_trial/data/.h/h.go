package p // .h/h.go
