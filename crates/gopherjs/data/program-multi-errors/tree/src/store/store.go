package store

import (
	"fmt"
	"store/codec"
	"strings"
)

type Key struct{ Table, Name string }

type Error struct {
	Key Key
	Err error
}

func (e *Error) Error() string { return fmt.Sprintf("%s/%s: %v", e.Key.Table, e.Key.Name, e.Err) }
func (e *Error) Unwrap() error { return e.Err }

type missing struct{}

func (missing) Error() string { return "missing" }

var ErrMissing error = missing{}

type Store struct {
	rows  map[Key]string
	order []Key
}

func (s *Store) Put(table, name, value string) {
	k := Key{table, name}
	if s.rows == nil {
		s.rows = make(map[Key]string)
	}
	if _, ok := s.rows[k]; !ok {
		s.order = append(s.order, k)
	}
	s.rows[k] = value
}

func (s *Store) Get(table, name string) (string, error) {
	k := Key{table, name}
	v, ok := s.rows[k]
	if !ok {
		return "", &Error{k, ErrMissing}
	}
	return v, nil
}

func (s *Store) Dump() string {
	var lines []string
	for _, k := range s.order {
		lines = append(lines, codec.Encode(k.Table, "=/;")+"/"+codec.Encode(k.Name, "=/;")+"="+codec.Encode(s.rows[k], ";"))
	}
	return strings.Join(lines, ";")
}

func Load(text string) (*Store, error) {
	s := &Store{}
	for n, line := range strings.Split(text, ";") {
		eq := strings.Index(line, "=")
		sl := strings.Index(line, "/")
		if sl < 0 || eq < sl {
			return s, fmt.Errorf("line %d: no key", n)
		}
		var parts [3]string
		for i, p := range []string{line[:sl], line[sl+1 : eq], line[eq+1:]} {
			d, err := codec.Decode(p)
			if err != nil {
				return s, &Error{Key{line[:sl], line[sl+1 : eq]}, err}
			}
			parts[i] = d
		}
		s.Put(parts[0], parts[1], parts[2])
	}
	return s, nil
}
