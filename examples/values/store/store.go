package store

type Item interface{ Key() string }

type Stack struct{ items []Item }

func (s *Stack) Push(item Item) error

func open(name string) (Stack, error)

var (
	stacks = map[string]Stack{"spare": {}}
	pushed = stacks["main"].Push(nil)
	main   = open("main")
	first  = stacks["spare"].items[-1]
	limit  = int8(200)
)
