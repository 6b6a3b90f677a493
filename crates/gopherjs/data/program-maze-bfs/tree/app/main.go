package main

import (
	"fmt"
	"strings"
)

type point struct{ r, c int }

var maze = []string{
	"S.#.......",
	".##.#####.",
	"....#...#.",
	".####.#.#.",
	".#....#...",
	".#.######.",
	"...#....#.",
	"##.#.##.#.",
	"......#..E",
}

var dirs = [...]point{{0, 1}, {1, 0}, {0, -1}, {-1, 0}}

func find(m []string, ch byte) (p point, ok bool) {
	for r, row := range m {
		for c := 0; c < len(row); c++ {
			if row[c] == ch {
				return point{r, c}, true
			}
		}
	}
	return
}

func open(m []string, p point) bool {
	return p.r >= 0 && p.r < len(m) && p.c >= 0 && p.c < len(m[p.r]) && m[p.r][p.c] != '#'
}

func bfs(m []string, from, to point) ([]point, int) {
	prev := map[point]point{from: from}
	queue := []point{from}
	seen := 0
	for len(queue) > 0 {
		p := queue[0]
		queue = queue[1:]
		seen++
		if p == to {
			var path []point
			for p != from {
				path = append(path, p)
				p = prev[p]
			}
			path = append(path, from)
			for i, j := 0, len(path)-1; i < j; i, j = i+1, j-1 {
				path[i], path[j] = path[j], path[i]
			}
			return path, seen
		}
		for _, d := range dirs {
			q := point{p.r + d.r, p.c + d.c}
			if _, was := prev[q]; !was && open(m, q) {
				prev[q] = p
				queue = append(queue, q)
			}
		}
	}
	return nil, seen
}

func draw(m []string, path []point) string {
	on := make(map[point]bool, len(path))
	for _, p := range path {
		on[p] = true
	}
	var b strings.Builder
	for r, row := range m {
		for c := range row {
			ch := row[c]
			if ch == '.' && on[point{r, c}] {
				ch = '*'
			}
			b.WriteByte(ch)
		}
		b.WriteByte('\n')
	}
	return b.String()
}

func distances(m []string, from point) [][]int {
	d := make([][]int, len(m))
	for i := range d {
		d[i] = make([]int, len(m[i]))
		for j := range d[i] {
			d[i][j] = -1
		}
	}
	d[from.r][from.c] = 0
	for front := []point{from}; len(front) > 0; {
		var next []point
		for _, p := range front {
			for _, v := range dirs {
				q := point{p.r + v.r, p.c + v.c}
				if open(m, q) && d[q.r][q.c] < 0 {
					d[q.r][q.c] = d[p.r][p.c] + 1
					next = append(next, q)
				}
			}
		}
		front = next
	}
	return d
}

func main() {
	from, ok1 := find(maze, 'S')
	to, ok2 := find(maze, 'E')
	_, ok3 := find(maze, 'X')
	fmt.Println(from.r, from.c, to.r, to.c, ok1, ok2, ok3)
	path, seen := bfs(maze, from, to)
	fmt.Println("steps", len(path)-1, "seen", seen)
	fmt.Print(draw(maze, path))
	for _, row := range distances(maze, from) {
		for _, v := range row {
			fmt.Printf("%3d", v)
		}
		fmt.Println()
	}
	closed := append([]string(nil), maze...)
	closed[7] = "##########"
	path, seen = bfs(closed, from, to)
	fmt.Println(path == nil, seen, maze[7])
}
