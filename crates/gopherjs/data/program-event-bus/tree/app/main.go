package main

import (
	"errors"
	"fmt"
	"runtime"
	"sync"
)

type message struct {
	topic string
	body  interface{}
	reply chan<- string
}

type handler func(message) error

type bus struct {
	mu       sync.Mutex
	handlers map[string][]handler
	in       chan message
	quit     chan struct{}
	done     sync.WaitGroup
	failed   []error
}

type option func(*bus)

func buffered(n int) option { return func(b *bus) { b.in = make(chan message, n) } }

func newBus(opts ...option) *bus {
	b := &bus{handlers: map[string][]handler{}, in: make(chan message), quit: make(chan struct{})}
	for _, o := range opts {
		o(b)
	}
	b.done.Add(1)
	go b.loop()
	return b
}

func (b *bus) on(topic string, h handler) (cancel func()) {
	b.mu.Lock()
	defer b.mu.Unlock()
	b.handlers[topic] = append(b.handlers[topic], h)
	i := len(b.handlers[topic]) - 1
	return func() {
		b.mu.Lock()
		defer b.mu.Unlock()
		b.handlers[topic][i] = nil
	}
}

var errSkip = errors.New("skipped")

type wrapped struct {
	topic string
	error
}

func (w wrapped) Unwrap() error { return w.error }

func (b *bus) call(h handler, m message) (err error) {
	defer func() {
		if r := recover(); r != nil {
			if e, ok := r.(runtime.Error); ok {
				err = wrapped{m.topic, e}
				return
			}
			err = fmt.Errorf("%s: %v", m.topic, r)
		}
	}()
	return h(m)
}

func (b *bus) loop() {
	defer b.done.Done()
	for {
		select {
		case m := <-b.in:
			b.mu.Lock()
			hs := append([]handler(nil), b.handlers[m.topic]...)
			b.mu.Unlock()
			for _, h := range hs {
				if h == nil {
					continue
				}
				if err := b.call(h, m); err != nil {
					b.failed = append(b.failed, err)
				}
			}
			if m.reply != nil {
				m.reply <- fmt.Sprint(m.topic, len(hs))
			}
		case <-b.quit:
			return
		}
	}
}

func (b *bus) ask(topic string, body interface{}) string {
	c := make(chan string)
	b.in <- message{topic, body, c}
	return <-c
}

func main() {
	b := newBus(buffered(2), func(b *bus) { fmt.Println("cap", cap(b.in)) })
	total := 0
	cancel := b.on("add", func(m message) error { total += m.body.(int); return nil })
	b.on("add", func(m message) error {
		if m.body == 3 {
			return wrapped{"add", errSkip}
		}
		return nil
	})
	b.on("bad", func(m message) error { var p *struct{ n int }; p.n++; return nil })
	b.on("bad", func(m message) error { panic(m.body) })
	for i := 0; i < 5; i++ {
		fmt.Println(b.ask("add", i), total)
	}
	cancel()
	fmt.Println(b.ask("add", 100), b.ask("none", nil), b.ask("bad", "x"), b.ask("add", "no int"), total)
	close(b.quit)
	b.done.Wait()
	for _, err := range b.failed {
		w, ok := err.(wrapped)
		fmt.Println(err, errors.Is(err, errSkip), ok && w.topic == "add")
	}
	select {
	case b.in <- message{}:
		fmt.Println("kept", len(b.in))
	default:
		fmt.Println("full")
	}
	b.on("late", nil)
	defer fmt.Println("deferred")
	fmt.Println(b.ask("late", 1))
}
