package p // go.mod
