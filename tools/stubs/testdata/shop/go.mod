module example.com/shop

go 1.17

require example.org/errs v1.0.0
