package main

import "fmt"

type node struct {
	key         int
	val         string
	height      int
	left, right *node
}

func height(n *node) int {
	if n == nil {
		return 0
	}
	return n.height
}

func (n *node) fix() {
	l, r := height(n.left), height(n.right)
	if l > r {
		n.height = l + 1
	} else {
		n.height = r + 1
	}
}

func (n *node) balance() int { return height(n.left) - height(n.right) }

func rotateRight(n *node) *node {
	l := n.left
	n.left, l.right = l.right, n
	n.fix()
	l.fix()
	return l
}

func rotateLeft(n *node) *node {
	r := n.right
	n.right, r.left = r.left, n
	n.fix()
	r.fix()
	return r
}

func rebalance(n *node) *node {
	n.fix()
	switch b := n.balance(); {
	case b > 1:
		if n.left.balance() < 0 {
			n.left = rotateLeft(n.left)
		}
		return rotateRight(n)
	case b < -1:
		if n.right.balance() > 0 {
			n.right = rotateRight(n.right)
		}
		return rotateLeft(n)
	}
	return n
}

func insert(n *node, k int, v string) (*node, bool) {
	if n == nil {
		return &node{key: k, val: v, height: 1}, true
	}
	var added bool
	switch {
	case k < n.key:
		n.left, added = insert(n.left, k, v)
	case k > n.key:
		n.right, added = insert(n.right, k, v)
	default:
		n.val = v
		return n, false
	}
	return rebalance(n), added
}

func takeLeast(n *node) (least, rest *node) {
	if n.left == nil {
		return n, n.right
	}
	least, n.left = takeLeast(n.left)
	return least, rebalance(n)
}

func remove(n *node, k int) (*node, bool) {
	if n == nil {
		return nil, false
	}
	ok := true
	switch {
	case k < n.key:
		n.left, ok = remove(n.left, k)
	case k > n.key:
		n.right, ok = remove(n.right, k)
	case n.left == nil:
		return n.right, true
	case n.right == nil:
		return n.left, true
	default:
		m, rest := takeLeast(n.right)
		m.left, m.right = n.left, rest
		n = m
	}
	return rebalance(n), ok
}

func (n *node) each(f func(*node) bool) bool {
	return n == nil || n.left.each(f) && f(n) && n.right.each(f)
}

// send gives the keys in order on a channel.
func (n *node) send() <-chan int {
	c := make(chan int)
	go func() {
		defer close(c)
		n.each(func(m *node) bool {
			c <- m.key
			return true
		})
	}()
	return c
}

func sameKeys(a, b *node) bool {
	x, y := a.send(), b.send()
	for {
		p, ok1 := <-x
		q, ok2 := <-y
		if ok1 != ok2 || p != q {
			return false
		}
		if !ok1 {
			return true
		}
	}
}

func valid(n *node, lo, hi int) bool {
	if n == nil {
		return true
	}
	b := n.balance()
	return lo < n.key && n.key < hi && -1 <= b && b <= 1 && valid(n.left, lo, n.key) && valid(n.right, n.key, hi)
}

func (n *node) String() string {
	if n == nil {
		return "."
	}
	if n.height == 1 {
		return fmt.Sprint(n.key)
	}
	return fmt.Sprintf("(%v %d %v)", n.left, n.key, n.right)
}

func main() {
	var t *node
	for i := 1; i <= 10; i++ {
		t, _ = insert(t, i, "")
	}
	fmt.Println(t, t.height)
	t, ok := remove(t, 4)
	t, ok2 := remove(t, 44)
	fmt.Println(t, ok, ok2)
	var u *node
	for _, k := range []int{9, 2, 7, 10, 1, 3, 8, 5, 6, 2} {
		var added bool
		u, added = insert(u, k, fmt.Sprint("v", k))
		if !added {
			fmt.Println("again", k)
		}
	}
	fmt.Println(u, sameKeys(t, u))
	u, _ = insert(u, 11, "x")
	fmt.Println(sameKeys(t, u), sameKeys(nil, nil))

	var big *node
	x, size, good := uint32(99), 0, true
	for i := 0; i < 200; i++ {
		x = x*1664525 + 1013904223
		k := int(x>>20) % 500
		var did bool
		if x>>10&3 == 0 {
			if big, did = remove(big, k); did {
				size--
			}
		} else if big, did = insert(big, k, ""); did {
			size++
		}
		good = good && valid(big, -1, 500)
	}
	n := 0
	big.each(func(*node) bool { n++; return true })
	fmt.Println(good, size == n, n, big.height <= 10)
	var firsts []int
	big.each(func(m *node) bool {
		firsts = append(firsts, m.key)
		return len(firsts) < 5
	})
	fmt.Println(firsts)
}
