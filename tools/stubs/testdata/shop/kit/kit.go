// Package kit has copies of locks, and calls of what prints in other packages.
package kit

import (
	tem "html/template"
	"log"
	"net/http"
	"os"
	"sync"
	"sync/atomic"
	"text/template"
	"time"

	"example.org/errs"
)

// Server has locks by what it embeds, and by fields that others can't name.
type Server struct {
	http.Server
	group sync.WaitGroup
	count atomic.Int64
	once  struct{ o sync.Once }
}

var logger = log.New(os.Stderr, "", 0)

// Name copies its receiver.
func (s Server) Name() string { return s.Addr }

// Wait copies two locks, and three structs that have none.
func Wait(g sync.WaitGroup, c atomic.Int64, t template.Template, h tem.Template, cl http.Client) {
	logger.Printf("%d", "one")
	logger.Println("%d", 1)
	logger.Fatalf("%s")
	_ = errs.Wrapf(os.ErrNotExist, "%d", "two")
	_ = errs.Errorf("%s %s", "three")
	logger.Printf("%f %s %v %g", time.Since(time.Now()).Seconds(), time.Now(), cl, errs.Average(1, 2))
	logger.Printf("%d %s", time.Now(), os.Stdout)
	logger.Printf("%s", http.StatusOK)
	time.Second.String()
}
