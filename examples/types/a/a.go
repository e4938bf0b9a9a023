package a

const most = 8

type Stack struct {
	items [most - 9]Item
	index map[[]byte]Item
}

type Item interface{ Key() []byte }

func (s *Stack) Push(item Item) error

func (s Stack) Push(item Item)
