// Noughts and crosses played out by both sides, with boards as keys of a map.
package main

import "fmt"

type player int8

const (
	none player = iota
	cross
	nought
)

func (p player) String() string { return [...]string{".", "X", "O"}[p] }
func (p player) other() player  { return cross + nought - p }

type board [9]player

var lines = [8][3]int{{0, 1, 2}, {3, 4, 5}, {6, 7, 8}, {0, 3, 6}, {1, 4, 7}, {2, 5, 8}, {0, 4, 8}, {2, 4, 6}}

func (b board) winner() player {
	for _, l := range lines {
		if p := b[l[0]]; p != none && p == b[l[1]] && p == b[l[2]] {
			return p
		}
	}
	return none
}

func (b board) full() bool {
	for _, p := range b {
		if p == none {
			return false
		}
	}
	return true
}

// with is the board after a move; the receiver is a copy.
func (b board) with(at int, p player) board {
	b[at] = p
	return b
}

func (b board) String() string {
	s := ""
	for i, p := range b {
		s += p.String()
		if i%3 == 2 && i < 8 {
			s += "/"
		}
	}
	return s
}

type answer struct{ score, move int }

type solver struct {
	known map[board]answer
	asked int
}

// best is the score for the one whose turn it is: 1 won, 0 drawn, -1 lost.
func (s *solver) best(b board, p player) answer {
	s.asked++
	if a, ok := s.known[b]; ok {
		return a
	}
	a := answer{-2, -1}
	switch w := b.winner(); {
	case w == p:
		a = answer{1, -1}
	case w != none:
		a = answer{-1, -1}
	case b.full():
		a = answer{0, -1}
	default:
		for at := range b {
			if b[at] != none {
				continue
			}
			if r := s.best(b.with(at, p), p.other()); -r.score > a.score {
				a = answer{-r.score, at}
			}
		}
	}
	s.known[b] = a
	return a
}

func (b board) turned() board {
	var t board
	for i, p := range b {
		t[i%3*3+2-i/3] = p
	}
	return t
}

func main() {
	s := &solver{known: map[board]answer{}}
	empty := board{nought, none, none, none, cross, none, none, none, nought}
	fmt.Println(s.best(empty, cross).score, s.best(empty, cross).move, len(s.known), s.asked)

	b, p := empty, cross
	for b.winner() == none && !b.full() {
		b[s.best(b, p).move] = p
		p = p.other()
		fmt.Println(b)
	}
	fmt.Println("winner", b.winner())

	for at := range empty {
		reply := s.best(empty.with(at, cross), nought)
		fmt.Print(at, ":", reply.score, "/", reply.move, " ")
	}
	fmt.Println()

	wins := [3]int{}
	for b := range s.known {
		wins[b.winner()]++
	}
	fmt.Println(wins[none], wins[cross], wins[nought])

	t := b.turned()
	for i := 0; i < 3; i++ {
		t = t.turned()
	}
	fmt.Println(t == b, b.turned() == b, t)
	trap := board{cross, none, none, none, nought, none, none, none, cross}
	a := s.best(trap, nought)
	fmt.Println(trap, a.score, a.move)
	trap = trap.with(2, nought)
	a = s.best(trap, cross)
	fmt.Println(trap, a.score, a.move)
}
