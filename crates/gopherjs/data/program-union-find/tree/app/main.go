package main

import "fmt"

type set struct {
	parent, size []int
	count        int
}

func newSet(n int) *set {
	s := &set{make([]int, n), make([]int, n), n}
	for i := range s.parent {
		s.parent[i], s.size[i] = i, 1
	}
	return s
}

func (s *set) find(x int) int {
	for s.parent[x] != x {
		s.parent[x] = s.parent[s.parent[x]]
		x = s.parent[x]
	}
	return x
}

func (s *set) join(a, b int) bool {
	a, b = s.find(a), s.find(b)
	if a == b {
		return false
	}
	if s.size[a] < s.size[b] {
		a, b = b, a
	}
	s.parent[b] = a
	s.size[a] += s.size[b]
	s.count--
	return true
}

type edge struct{ a, b, w int }

type edges []edge

// sort is a merge sort, which keeps the order of equal weights.
func (e edges) sort() edges {
	if len(e) < 2 {
		return e
	}
	m := len(e) / 2
	l, r := e[:m].sort(), e[m:].sort()
	out := make(edges, 0, len(e))
	for len(l) > 0 && len(r) > 0 {
		if r[0].w < l[0].w {
			out = append(out, r[0])
			r = r[1:]
		} else {
			out = append(out, l[0])
			l = l[1:]
		}
	}
	return append(append(out, l...), r...)
}

func kruskal(n int, es edges) (tree edges, cost int) {
	s := newSet(n)
	for _, e := range es.sort() {
		if s.join(e.a, e.b) {
			tree = append(tree, e)
			cost += e.w
		}
	}
	return
}

func prim(n int, es edges) (cost int) {
	const far = 1 << 30
	var adj = make([][]int, n)
	for i := range adj {
		adj[i] = make([]int, n)
		for j := range adj[i] {
			adj[i][j] = far
		}
	}
	for _, e := range es {
		if e.w < adj[e.a][e.b] {
			adj[e.a][e.b], adj[e.b][e.a] = e.w, e.w
		}
	}
	in := make([]bool, n)
	near := append([]int(nil), adj[0]...)
	in[0] = true
	for k := 1; k < n; k++ {
		best := -1
		for i, d := range near {
			if !in[i] && (best < 0 || d < near[best]) {
				best = i
			}
		}
		if near[best] == far {
			return -1
		}
		cost += near[best]
		in[best] = true
		for i, d := range adj[best] {
			if d < near[i] {
				near[i] = d
			}
		}
	}
	return
}

func topo(n int, after [][2]int) (order []int, ok bool) {
	deg := make([]int, n)
	out := make([][]int, n)
	for _, p := range after {
		out[p[0]] = append(out[p[0]], p[1])
		deg[p[1]]++
	}
	var free []int
	for i, d := range deg {
		if d == 0 {
			free = append(free, i)
		}
	}
	for len(free) > 0 {
		x := free[0]
		free = free[1:]
		order = append(order, x)
		for _, y := range out[x] {
			if deg[y]--; deg[y] == 0 {
				free = append(free, y)
			}
		}
	}
	return order, len(order) == n
}

func main() {
	es := edges{{0, 1, 7}, {0, 3, 5}, {1, 2, 8}, {1, 3, 9}, {1, 4, 7}, {2, 4, 5}, {3, 4, 15}, {3, 5, 6}, {4, 5, 8}, {4, 6, 9}, {5, 6, 11}}
	tree, cost := kruskal(7, es)
	for _, e := range tree {
		fmt.Print(e.a, "-", e.b, ":", e.w, " ")
	}
	fmt.Println(cost, prim(7, es), es[0].w)
	fmt.Println(prim(8, es))

	var big edges
	x := uint32(5)
	for i := 0; i < 400; i++ {
		x ^= x << 13
		x ^= x >> 17
		x ^= x << 5
		big = append(big, edge{int(x % 60), int(x >> 8 % 60), int(x >> 20)})
	}
	for i := range big {
		big[i].b %= 60
	}
	for i := 1; i < 60; i++ {
		big = append(big, edge{i - 1, i, 5000})
	}
	bt, bc := kruskal(60, big)
	fmt.Println(len(bt), bc, bc == prim(60, big))
	s := newSet(10)
	fmt.Println(s.join(1, 2), s.join(3, 4), s.join(2, 3), s.join(1, 4), s.count, s.size[s.find(4)], s.find(9))
	fmt.Println(topo(6, [][2]int{{5, 2}, {5, 0}, {4, 0}, {4, 1}, {2, 3}, {3, 1}}))
	fmt.Println(topo(4, [][2]int{{0, 1}, {1, 2}, {2, 1}, {2, 3}}))
}
