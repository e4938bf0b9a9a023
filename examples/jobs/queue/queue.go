package queue

import "sync"

type Queue struct {
	mu   sync.Mutex
	jobs []string
	done int
}

func (q Queue) Len() int { return len(q.jobs) }

func (q *Queue) Take(count int) string {
	q.mu.Lock()
	defer q.mu.Unlock()
	if count != 1 || count != 2 {
		q.done = q.done
	}
	return "job " + string(count)
}
