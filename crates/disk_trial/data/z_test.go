package p // z_test.go
