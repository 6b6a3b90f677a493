package main

import (
	"errors"
	"fmt"
	"strconv"
)

var (
	errNotFound = errors.New("not found")
	errDenied   = errors.New("denied")
)

type opError struct {
	op, path string
	err      error
}

func (e *opError) Error() string { return e.op + " " + e.path + ": " + e.err.Error() }
func (e *opError) Unwrap() error { return e.err }

type code int

func (c code) Error() string { return "code " + strconv.Itoa(int(c)) }

func (c code) Is(target error) bool {
	return c == 404 && target == errNotFound
}

type temporary interface{ Temporary() bool }

type busy struct{ tries int }

func (b busy) Error() string   { return fmt.Sprintf("busy after %d", b.tries) }
func (b busy) Temporary() bool { return b.tries < 3 }

type store struct {
	files map[string]string
	tries int
}

func (s *store) open(path string) (string, error) {
	switch {
	case path == "/secret":
		return "", &opError{"open", path, errDenied}
	case path == "/busy":
		s.tries++
		return "", busy{s.tries}
	case path == "/web":
		return "", &opError{"get", path, code(404)}
	case path == "/teapot":
		return "", code(418)
	}
	text, ok := s.files[path]
	if !ok {
		return "", &opError{"open", path, errNotFound}
	}
	return text, nil
}

func (s *store) number(path string) (n int, err error) {
	text, err := s.open(path)
	if err != nil {
		return 0, &opError{"number", path, err}
	}
	n, err = strconv.Atoi(text)
	if err != nil {
		return 0, &opError{"number", path, errors.New(err.Error())}
	}
	return
}

func retry(n int, f func() error) (err error) {
	for i := 0; i < n; i++ {
		if err = f(); err == nil {
			return nil
		}
		if t, ok := err.(temporary); !ok || !t.Temporary() {
			return err
		}
	}
	return err
}

func depth(err error) int {
	n := 0
	for ; err != nil; err = errors.Unwrap(err) {
		n++
	}
	return n
}

func kind(err error) string {
	switch e := err.(type) {
	case nil:
		return "none"
	case *opError:
		return "op(" + e.op + "," + kind(e.err) + ")"
	case code, busy:
		return "value(" + e.Error() + ")"
	case interface{ Unwrap() error }:
		return "wrapped"
	}
	return "plain"
}

func nilPointer() error {
	var p *opError
	return p
}

func main() {
	s := &store{files: map[string]string{"/a": "12", "/b": "x12", "/c": "-2147483648", "/d": "2147483648"}}
	for _, p := range []string{"/a", "/b", "/c", "/d", "/e", "/secret", "/web", "/teapot"} {
		n, err := s.number(p)
		fmt.Println(p, n, err, depth(err))
		fmt.Println("  ", kind(err), errors.Is(err, errNotFound), errors.Is(err, errDenied), errors.Is(err, code(418)), errors.Is(err, nil))
	}
	err := retry(10, func() error { _, err := s.open("/busy"); return err })
	fmt.Println(err, s.tries, errors.Is(err, busy{3}), errors.Is(err, busy{4}))
	calls := 0
	fmt.Println(retry(5, func() error {
		if calls++; calls < 3 {
			return busy{0}
		}
		return nil
	}), calls)
	fmt.Println(nilPointer() == nil, nilPointer() == (*opError)(nil), kind(nil), depth(nil))
	a, b := error(&opError{"x", "y", errDenied}), error(&opError{"x", "y", errDenied})
	fmt.Println(a == b, *a.(*opError) == *b.(*opError), errors.New("q") == errors.New("q"), code(1) == error(code(1)))
}
