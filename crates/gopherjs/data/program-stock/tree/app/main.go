package main

import (
	"errors"
	"fmt"
	"os"
	"strconv"
	"strings"
)

type money int64

func (m money) String() string {
	sign := ""
	if m < 0 {
		sign, m = "-", -m
	}
	return fmt.Sprintf("%s%d.%02d", sign, int64(m)/100, int64(m)%100)
}

func parseMoney(s string) (money, error) {
	parts := strings.Split(s, ".")
	if len(parts) > 2 {
		return 0, fmt.Errorf("too many points in %s", s)
	}
	whole, err := strconv.ParseInt(parts[0], 10, 64)
	if err != nil {
		return 0, err
	}
	var cents int
	if len(parts) == 2 {
		if cents, err = strconv.Atoi((parts[1] + "00")[:2]); err != nil {
			return 0, err
		}
	}
	return money(whole*100) + money(cents), nil
}

type item struct {
	name  string
	price money
	count uint16
	tags  []string
}

type store struct {
	items map[string]*item
	order []*item
	log   strings.Builder
}

var (
	errUnknown = errors.New("unknown item")
	errShort   = errors.New("not enough")
)

type commandError struct {
	line int
	err  error
}

func (c *commandError) Error() string { return "line " + strconv.Itoa(c.line) + ": " + c.err.Error() }
func (c *commandError) Unwrap() error { return c.err }

func (s *store) find(name string) (*item, error) {
	if it, ok := s.items[name]; ok {
		return it, nil
	}
	return nil, errUnknown
}

type command struct {
	args int
	run  func(s *store, args ...string) error
}

var commands map[string]command

func init() {
	commands = map[string]command{
		"add": {3, func(s *store, args ...string) error {
			price, err := parseMoney(args[1])
			if err != nil {
				return err
			}
			n, err := strconv.ParseInt(args[2], 0, 16)
			if err != nil {
				return err
			}
			it, ok := s.items[args[0]]
			if !ok {
				it = &item{name: args[0]}
				s.items[it.name] = it
				s.order = append(s.order, it)
			}
			it.price, it.count = price, it.count+uint16(n)
			it.tags = append(it.tags, args[3:]...)
			return nil
		}},
		"sell": {2, func(s *store, args ...string) (err error) {
			it, err := s.find(args[0])
			if err != nil {
				return
			}
			n, err := strconv.Atoi(args[1])
			if err != nil {
				return err
			}
			if int(it.count) < n {
				return errShort
			}
			it.count -= uint16(n)
			s.log.WriteString(fmt.Sprintf("%s x%d = %v\n", it.name, n, it.price*money(n)))
			return
		}},
		"list": {0, (*store)(nil).list()},
	}
}

func (s *store) list() func(*store, ...string) error {
	return func(s *store, args ...string) error {
		for _, it := range s.order {
			fmt.Printf("%-8s%8v%6d %v\n", it.name, it.price, it.count, it.tags)
		}
		return nil
	}
}

func (s *store) run(script string) (failed int) {
	for n, line := range strings.Split(script, "\n") {
		if line = strings.TrimSpace(line); line == "" || strings.HasPrefix(line, "#") {
			continue
		}
		words := strings.Fields(line)
		err := func() error {
			c, ok := commands[words[0]]
			if !ok {
				return fmt.Errorf("no command %s", words[0])
			}
			if len(words)-1 < c.args {
				return fmt.Errorf("%s needs %d words, has %v", words[0], c.args, words[1:])
			}
			return c.run(s, words[1:]...)
		}()
		if err != nil {
			err = &commandError{n + 1, err}
			failed++
			fmt.Println(err, errors.Is(err, errShort), errors.Is(err, errUnknown))
		}
	}
	return
}

func main() {
	s := &store{items: make(map[string]*item)}
	failed := s.run(`
		# goods
		add pear 1.25 10 fruit green
		add nail .5 5
		add nail 0.5 0x100 iron
		add bolt 12 0b11
		sell pear 3
		sell pear 8
		sell plum 1
		sell nail many
		add bolt 1.2.3 1
		add big 92233720368547758.07 99999
		add pear 1.5 65535
		discount
		add x
		list
	`)
	fmt.Print(s.log.String())
	fmt.Println(failed, money(-5), money(-1234567), money(1<<40))
	if failed > 0 {
		defer os.Exit(failed)
	}
	fmt.Println("end")
}
