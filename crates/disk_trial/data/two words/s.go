package p // two words/s.go
