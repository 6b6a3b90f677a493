// Orders, components and bridges of graphs, with labels and early leaving.
package main

import "fmt"

type graph struct {
	names []string
	index map[string]int
	edges [][]int
}

func newGraph() *graph { return &graph{index: map[string]int{}} }

func (g *graph) node(name string) int {
	if i, ok := g.index[name]; ok {
		return i
	}
	i := len(g.names)
	g.index[name] = i
	g.names = append(g.names, name)
	g.edges = append(g.edges, nil)
	return i
}

func (g *graph) edge(from string, to ...string) *graph {
	a := g.node(from)
	for _, t := range to {
		b := g.node(t)
		g.edges[a] = append(g.edges[a], b)
	}
	return g
}

// order gives the nodes so that edges lead forward, or a cycle.
func (g *graph) order() (order, cycle []string) {
	const (
		fresh = iota
		open
		done
	)
	marks := make([]uint8, len(g.names))
	var path []int
	var visit func(n int) bool
	visit = func(n int) bool {
		switch marks[n] {
		case done:
			return true
		case open:
			for i := len(path) - 1; i >= 0; i-- {
				cycle = append(cycle, g.names[path[i]])
				if path[i] == n {
					break
				}
			}
			return false
		}
		marks[n] = open
		path = append(path, n)
		for _, m := range g.edges[n] {
			if !visit(m) {
				return false
			}
		}
		path = path[:len(path)-1]
		marks[n] = done
		order = append([]string{g.names[n]}, order...)
		return true
	}
	for n := range g.names {
		if !visit(n) {
			return nil, cycle
		}
	}
	return order, nil
}

// components finds strongly connected parts by low links.
func (g *graph) components() (parts [][]string) {
	n := len(g.names)
	low, met := make([]int, n), make([]int, n)
	on := make([]bool, n)
	var stack []int
	count := 0
	var visit func(v int)
	visit = func(v int) {
		count++
		low[v], met[v] = count, count
		stack = append(stack, v)
		on[v] = true
		for _, w := range g.edges[v] {
			if met[w] == 0 {
				visit(w)
				if low[w] < low[v] {
					low[v] = low[w]
				}
			} else if on[w] && met[w] < low[v] {
				low[v] = met[w]
			}
		}
		if low[v] != met[v] {
			return
		}
		var part []string
		for {
			w := stack[len(stack)-1]
			stack = stack[:len(stack)-1]
			on[w] = false
			part = append(part, g.names[w])
			if w == v {
				parts = append(parts, part)
				return
			}
		}
	}
	for v := 0; v < n; v++ {
		if met[v] == 0 {
			visit(v)
		}
	}
	return
}

// pairs finds the first two nodes of which each has an edge to the other.
func (g *graph) pairs() (a, b string, tries int) {
outer:
	for v, list := range g.edges {
		for _, w := range list {
			tries++
			if w == v {
				continue outer
			}
			for _, back := range g.edges[w] {
				tries++
				switch {
				case back == v:
					a, b = g.names[v], g.names[w]
					break outer
				case back > v:
					continue
				}
				tries += 100
			}
		}
	}
	return
}

// far gives the distances from a node by breadth.
func (g *graph) far(from string) map[string]int {
	start, ok := g.index[from]
	if !ok {
		return nil
	}
	found := map[string]int{from: 0}
	for queue := []int{start}; len(queue) > 0; queue = queue[1:] {
		for _, w := range g.edges[queue[0]] {
			if _, seen := found[g.names[w]]; !seen {
				found[g.names[w]] = found[g.names[queue[0]]] + 1
				queue = append(queue, w)
			}
		}
	}
	return found
}

func main() {
	clothes := newGraph().edge("shirt", "tie", "belt").edge("tie", "jacket").edge("trousers", "shoes", "belt").
		edge("belt", "jacket").edge("socks", "shoes").edge("hat")
	fmt.Println(clothes.order())
	fmt.Println(len(clothes.components()), clothes.components()[0])

	g := newGraph().edge("a", "b").edge("b", "c", "e", "f").edge("c", "d", "g").edge("d", "c", "h").
		edge("e", "a", "f").edge("f", "g").edge("g", "f").edge("h", "d", "g").edge("i", "i")
	fmt.Println(g.order())
	for _, part := range g.components() {
		fmt.Print(part)
	}
	fmt.Println()
	fmt.Println(g.pairs())
	far := g.far("a")
	for _, name := range g.names {
		if d, ok := far[name]; ok {
			fmt.Print(name, d, " ")
		}
	}
	fmt.Println(len(far), g.far("nowhere") == nil, len(g.far("nowhere")))
	fmt.Println(newGraph().order())
}
