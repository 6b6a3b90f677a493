// Deadlock: two goroutines that each wait for what the other one holds. When every goroutine waits, the
// program ends with a fatal error.
package main

import (
	"fmt"
	"sync"
)

// A fork lies between two places at the table.
type fork struct{ sync.Mutex }

// A table says who sits, and when all begin.
type table struct {
	seated chan string
	begin  chan bool
	done   chan string
}

// eat takes one fork, waits for the others, and takes the other fork.
func (t *table) eat(name string, first, second *fork) {
	first.Lock()
	t.seated <- name
	<-t.begin
	second.Lock()
	t.done <- name
	second.Unlock()
	first.Unlock()
}

func newTable() *table {
	return &table{make(chan string), make(chan bool), make(chan string)}
}

func main() {
	var left, right fork

	alone := newTable()
	go alone.eat("Ada", &left, &right)
	fmt.Println(<-alone.seated, "sits alone")
	close(alone.begin)
	fmt.Println(<-alone.done, "has eaten")

	both := newTable()
	go both.eat("Ada", &left, &right)
	fmt.Println(<-both.seated, "sits")
	go both.eat("Grace", &right, &left)
	fmt.Println(<-both.seated, "sits")
	close(both.begin)
	fmt.Println(<-both.done, "has eaten")
}
