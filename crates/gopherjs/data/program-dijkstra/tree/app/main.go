package main

import "fmt"

const inf = int(^uint(0) >> 1)

type edge struct {
	to, cost int
}

type graph struct {
	names []string
	index map[string]int
	adj   [][]edge
}

func (g *graph) node(name string) int {
	if i, ok := g.index[name]; ok {
		return i
	}
	i := len(g.names)
	g.index[name] = i
	g.names = append(g.names, name)
	g.adj = append(g.adj, nil)
	return i
}

func (g *graph) link(a, b string, cost int) {
	i, j := g.node(a), g.node(b)
	g.adj[i] = append(g.adj[i], edge{j, cost})
	g.adj[j] = append(g.adj[j], edge{i, cost})
}

type item struct {
	node, dist int
}

type pq []item

func (q *pq) push(x item) {
	*q = append(*q, x)
	for i := len(*q) - 1; i > 0 && (*q)[(i-1)/2].dist > (*q)[i].dist; i = (i - 1) / 2 {
		(*q)[i], (*q)[(i-1)/2] = (*q)[(i-1)/2], (*q)[i]
	}
}

func (q *pq) pop() item {
	old := *q
	top := old[0]
	n := len(old) - 1
	old[0] = old[n]
	*q = old[:n]
	h := *q
	for i := 0; 2*i+1 < n; {
		c := 2*i + 1
		if c+1 < n && h[c+1].dist < h[c].dist {
			c++
		}
		if h[i].dist <= h[c].dist {
			break
		}
		h[i], h[c] = h[c], h[i]
		i = c
	}
	return top
}

func (g *graph) shortest(from int) (dist, via []int) {
	dist = make([]int, len(g.names))
	via = make([]int, len(g.names))
	for i := range dist {
		dist[i], via[i] = inf, -1
	}
	dist[from] = 0
	q := pq{{from, 0}}
	for len(q) > 0 {
		it := q.pop()
		if it.dist > dist[it.node] {
			continue
		}
		for _, e := range g.adj[it.node] {
			if d := it.dist + e.cost; d < dist[e.to] {
				dist[e.to] = d
				via[e.to] = it.node
				q.push(item{e.to, d})
			}
		}
	}
	return
}

func (g *graph) route(via []int, to int) string {
	if via[to] < 0 {
		return g.names[to]
	}
	return g.route(via, via[to]) + ">" + g.names[to]
}

func main() {
	g := &graph{index: map[string]int{}}
	for _, e := range []struct {
		a, b string
		c    int
	}{
		{"ulm", "bonn", 7}, {"ulm", "jena", 9}, {"ulm", "kiel", 14}, {"bonn", "jena", 10},
		{"bonn", "gera", 15}, {"jena", "gera", 11}, {"jena", "kiel", 2}, {"gera", "hof", 6}, {"kiel", "hof", 9},
	} {
		g.link(e.a, e.b, e.c)
	}
	g.node("island")
	for _, start := range []string{"ulm", "hof"} {
		dist, via := g.shortest(g.index[start])
		for i, d := range dist {
			if d == inf {
				fmt.Printf("%s -> %s: none\n", start, g.names[i])
				continue
			}
			fmt.Printf("%s -> %-5s %3d %s\n", start, g.names[i], d, g.route(via, i))
		}
	}

	// a grid with costs, checked against a plain relaxation
	const n = 12
	grid := &graph{index: map[string]int{}}
	at := func(r, c int) string { return fmt.Sprintf("%d,%d", r, c) }
	for r := 0; r < n; r++ {
		for c := 0; c < n; c++ {
			if r+1 < n {
				grid.link(at(r, c), at(r+1, c), 1+(r*7+c*3)%9)
			}
			if c+1 < n {
				grid.link(at(r, c), at(r, c+1), 1+(r*5+c*11)%9)
			}
		}
	}
	dist, _ := grid.shortest(grid.index["0,0"])
	plain := make([]int, len(dist))
	for i := range plain {
		plain[i] = inf / 2
	}
	plain[grid.index["0,0"]] = 0
	rounds := 0
	for changed := true; changed; rounds++ {
		changed = false
		for i, es := range grid.adj {
			for _, e := range es {
				if plain[i]+e.cost < plain[e.to] {
					plain[e.to] = plain[i] + e.cost
					changed = true
				}
			}
		}
	}
	same := true
	for i := range dist {
		same = same && dist[i] == plain[i]
	}
	fmt.Println(same, rounds, dist[grid.index[at(n-1, n-1)]])
}
