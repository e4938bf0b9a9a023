package p // a/go.mod
