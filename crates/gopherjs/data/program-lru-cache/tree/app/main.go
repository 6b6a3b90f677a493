package main

import "fmt"

type node struct {
	key, val   int
	prev, next *node
}

type cache struct {
	cap        int
	items      map[int]*node
	head, tail *node
	hits, miss int
}

func newCache(n int) *cache {
	c := &cache{cap: n, items: make(map[int]*node)}
	c.head, c.tail = &node{}, &node{}
	c.head.next = c.tail
	c.tail.prev = c.head
	return c
}

func (c *cache) unlink(n *node) {
	n.prev.next, n.next.prev = n.next, n.prev
	n.prev, n.next = nil, nil
}

func (c *cache) front(n *node) {
	n.next = c.head.next
	n.prev = c.head
	c.head.next.prev = n
	c.head.next = n
}

func (c *cache) get(k int) (int, bool) {
	n, ok := c.items[k]
	if !ok {
		c.miss++
		return 0, false
	}
	c.hits++
	c.unlink(n)
	c.front(n)
	return n.val, true
}

func (c *cache) put(k, v int) (evicted int, did bool) {
	if n, ok := c.items[k]; ok {
		n.val = v
		c.unlink(n)
		c.front(n)
		return
	}
	if len(c.items) == c.cap {
		old := c.tail.prev
		c.unlink(old)
		delete(c.items, old.key)
		evicted, did = old.key, true
	}
	n := &node{key: k, val: v}
	c.items[k] = n
	c.front(n)
	return
}

func (c *cache) keys() []int {
	var r []int
	for n := c.head.next; n != c.tail; n = n.next {
		r = append(r, n.key)
	}
	return r
}

func slow(k int) int {
	s := 0
	for i := 0; i <= k; i++ {
		s += i * i
	}
	return s
}

func (c *cache) lookup(k int) int {
	if v, ok := c.get(k); ok {
		return v
	}
	v := slow(k)
	if e, did := c.put(k, v); did {
		fmt.Printf("  evict %d for %d\n", e, k)
	}
	return v
}

func main() {
	c := newCache(3)
	for _, k := range []int{1, 2, 3, 1, 4, 2, 5, 1, 1, 3} {
		v := c.lookup(k)
		fmt.Printf("get %d = %3d %v\n", k, v, c.keys())
	}
	fmt.Println("hits", c.hits, "misses", c.miss)
	c.put(3, -1)
	fmt.Println(c.lookup(3), len(c.items), c.keys())

	big := newCache(16)
	x := uint32(12345)
	for i := 0; i < 2000; i++ {
		x = x*1664525 + 1013904223
		k := int(x >> 27)
		if _, ok := big.get(k); !ok {
			big.put(k, i)
		}
	}
	fmt.Println(big.hits, big.miss, big.hits+big.miss, big.keys())
}
