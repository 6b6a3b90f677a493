package main

import (
	"fmt"
	"sync"
)

type guarded struct {
	mu    sync.Mutex
	held  bool
	value int
}

func (g *guarded) with(f func(int) int) {
	g.mu.Lock()
	g.held = true
	defer func() {
		g.held = false
		g.mu.Unlock()
	}()
	g.value = f(g.value)
}

type tree struct {
	mu          sync.Mutex
	key         int
	left, right *tree
}

// insert locks hand over hand.
func (t *tree) insert(k int) {
	t.mu.Lock()
	for {
		next := &t.left
		if k > t.key {
			next = &t.right
		} else if k == t.key {
			t.mu.Unlock()
			return
		}
		if *next == nil {
			*next = &tree{key: k}
			t.mu.Unlock()
			return
		}
		n := *next
		n.mu.Lock()
		t.mu.Unlock()
		t = n
	}
}

func (t *tree) walk(f func(int)) {
	if t == nil {
		return
	}
	t.left.walk(f)
	f(t.key)
	t.right.walk(f)
}

func main() {
	var g guarded
	for i := 0; i < 5; i++ {
		func() {
			defer func() {
				if r := recover(); r != nil {
					fmt.Println("recovered", r, g.held)
				}
			}()
			g.with(func(v int) int {
				if v == 6 {
					panic("six")
				}
				return v + i + 1
			})
		}()
	}
	fmt.Println(g.value, g.held)

	root := &tree{key: 50}
	var wg sync.WaitGroup
	for w := 0; w < 4; w++ {
		wg.Add(1)
		go func(w int) {
			defer wg.Done()
			for i := 0; i < 25; i++ {
				root.insert((i*37 + w*11) % 101)
			}
		}(w)
	}
	wg.Wait()
	n, sum, last, sorted := 0, 0, -1, true
	root.walk(func(k int) {
		n++
		sum += k
		sorted = sorted && k > last
		last = k
	})
	fmt.Println(n, sum, sorted)

	var mu sync.Mutex
	mu.Lock()
	go func() {
		fmt.Println("other goroutine unlocks")
		mu.Unlock()
	}()
	mu.Lock()
	mu.Unlock()
	defer func() {
		fmt.Println("a fatal error is no panic", recover())
	}()
	fmt.Println("now twice")
	mu.Unlock()
	fmt.Println("unreached")
}
