package run

import "m/stop"

type Queue struct{ jobs chan func() }

func (q *Queue) Serve() {
	for {
		select {
		case job := <-q.jobs:
			job()
		}
	}
}

func Fail(text string) {
	println(text)
	stop.Now(2)
}
