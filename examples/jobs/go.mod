module jobs

go 1.17
