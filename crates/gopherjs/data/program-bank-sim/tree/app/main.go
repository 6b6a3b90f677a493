package main

import (
	"errors"
	"fmt"
	"runtime"
	"sync"
)

var (
	errFunds   = errors.New("not enough funds")
	errAccount = errors.New("no such account")
)

type account struct {
	mu      sync.Mutex
	id      int
	balance int64
	moves   int
}

type bank struct {
	accounts []*account
	mu       sync.Mutex
	failed   map[string]int
}

func newBank(n int, start int64) *bank {
	b := &bank{failed: map[string]int{}}
	for i := 0; i < n; i++ {
		b.accounts = append(b.accounts, &account{id: i, balance: start})
	}
	return b
}

func (b *bank) account(id int) (*account, error) {
	if id < 0 || id >= len(b.accounts) {
		return nil, errAccount
	}
	return b.accounts[id], nil
}

func (b *bank) transfer(from, to int, amount int64) error {
	x, err := b.account(from)
	if err != nil {
		return fmt.Errorf("from %d: %v", from, err)
	}
	y, err := b.account(to)
	if err != nil {
		return err
	}
	if x == y {
		return nil
	}
	first, second := x, y
	if second.id < first.id {
		first, second = second, first
	}
	first.mu.Lock()
	defer first.mu.Unlock()
	runtime.Gosched()
	second.mu.Lock()
	defer second.mu.Unlock()
	if x.balance < amount {
		return errFunds
	}
	x.balance -= amount
	runtime.Gosched()
	y.balance += amount
	x.moves++
	y.moves++
	return nil
}

func (b *bank) fail(err error) {
	b.mu.Lock()
	b.failed[err.Error()]++
	b.mu.Unlock()
}

func (b *bank) total() (sum int64) {
	for _, a := range b.accounts {
		a.mu.Lock()
		sum += a.balance
		a.mu.Unlock()
	}
	return
}

func main() {
	b := newBank(8, 1000)
	var wg sync.WaitGroup
	for w := 0; w < 6; w++ {
		wg.Add(1)
		go func(seed uint32) {
			defer wg.Done()
			for i := 0; i < 40; i++ {
				seed = seed*1103515245 + 12345
				from := int(seed>>16) % 8
				seed = seed*1103515245 + 12345
				to := int(seed>>16) % 8
				if err := b.transfer(from, to, int64(seed%7)); err != nil {
					b.fail(err)
				}
			}
		}(uint32(w)*77 + 1)
	}
	wg.Wait()
	moves := 0
	for _, a := range b.accounts {
		moves += a.moves
	}
	fmt.Println("total", b.total(), "even", moves%2 == 0, "moves", moves, "failed", len(b.failed))

	for _, t := range []struct {
		from, to int
		amount   int64
	}{{0, 1, 1 << 40}, {9, 1, 1}, {1, -1, 1}, {3, 3, 1 << 50}, {0, 1, 1}} {
		err := b.transfer(t.from, t.to, t.amount)
		fmt.Println(err, errors.Is(err, errFunds), errors.Is(err, errAccount))
	}
	fmt.Println("total", b.total())

	// a rich account is drained by many
	r := newBank(5, 0)
	r.accounts[0].balance = 97
	for w := 1; w < 5; w++ {
		wg.Add(1)
		w := w
		go func() {
			defer wg.Done()
			for r.transfer(0, w, 1) == nil {
			}
		}()
	}
	wg.Wait()
	fmt.Println(r.accounts[0].balance, r.total(), r.accounts[0].moves)
}
