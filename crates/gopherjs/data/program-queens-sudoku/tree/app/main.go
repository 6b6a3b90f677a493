package main

import (
	"fmt"
	"strings"
)

func queens(n int, first func([]int)) int {
	all := 1<<uint(n) - 1
	rows := make([]int, 0, n)
	var place func(cols, left, right int) int
	place = func(cols, left, right int) (count int) {
		if cols == all {
			if first != nil {
				first(rows)
				first = nil
			}
			return 1
		}
		for free := all &^ (cols | left | right); free != 0; {
			bit := free & -free
			free &^= bit
			col := 0
			for b := bit; b > 1; b >>= 1 {
				col++
			}
			rows = append(rows, col)
			count += place(cols|bit, (left|bit)<<1&all, (right|bit)>>1)
			rows = rows[:len(rows)-1]
		}
		return
	}
	return place(0, 0, 0)
}

type board [9][9]int8

func parse(s string) (b board, ok bool) {
	if len(s) != 81 {
		return
	}
	for i := range s {
		if c := s[i]; c != '.' {
			b[i/9][i%9] = int8(c - '0')
		}
	}
	return b, true
}

type solver struct {
	board
	row, col, box [9]uint16
	tries         int
}

func newSolver(b board) *solver {
	s := &solver{board: b}
	for r, line := range b {
		for c, v := range line {
			if v > 0 {
				s.mark(r, c, 1<<uint(v))
			}
		}
	}
	return s
}

func (s *solver) mark(r, c int, bit uint16) {
	s.row[r] ^= bit
	s.col[c] ^= bit
	s.box[r/3*3+c/3] ^= bit
}

func (s *solver) free(r, c int) uint16 {
	return 0x3fe &^ (s.row[r] | s.col[c] | s.box[r/3*3+c/3])
}

func bits(x uint16) (n int) {
	for ; x > 0; x &= x - 1 {
		n++
	}
	return
}

func (s *solver) solve() bool {
	br, bc, best := -1, -1, 10
search:
	for r := range s.board {
		for c, v := range s.board[r] {
			if v != 0 {
				continue
			}
			n := bits(s.free(r, c))
			if n < best {
				br, bc, best = r, c, n
				if n <= 1 {
					break search
				}
			}
		}
	}
	if br < 0 {
		return true
	}
	f := s.free(br, bc)
	for v := int8(1); v <= 9; v++ {
		bit := uint16(1) << uint(v)
		if f&bit == 0 {
			continue
		}
		s.tries++
		s.board[br][bc] = v
		s.mark(br, bc, bit)
		if s.solve() {
			return true
		}
		s.mark(br, bc, bit)
		s.board[br][bc] = 0
	}
	return false
}

func (b board) String() string {
	var sb strings.Builder
	for _, line := range b {
		for _, v := range line {
			sb.WriteByte('0' + byte(v))
		}
		sb.WriteByte('/')
	}
	return sb.String()
}

func main() {
	for n := 1; n <= 8; n++ {
		var got []int
		count := queens(n, func(rows []int) { got = append(got, rows...) })
		fmt.Println(n, count, got)
	}
	for _, p := range []string{
		"53..7....6..195....98....6.8...6...34..8.3..17...2...6.6....28....419..5....8..79",
		"55..7....6..195....98....6.8...6...34..8.3..17...2...6.6....28....419..5....8..79",
		"short",
	} {
		b, ok := parse(p)
		if !ok {
			fmt.Println("bad board")
			continue
		}
		before := b
		s := newSolver(b)
		done := s.solve()
		fmt.Println(done, s.tries > 0, b == before, s.board == b)
		if done {
			fmt.Println(s)
		}
	}
}
