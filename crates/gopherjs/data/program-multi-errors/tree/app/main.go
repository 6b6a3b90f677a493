package main

import (
	"errors"
	"fmt"
	"store"
	"store/codec"
)

func explain(err error) string {
	var se *store.Error
	if e, ok := err.(*store.Error); ok {
		se = e
	}
	switch {
	case err == nil:
		return "fine"
	case errors.Is(err, store.ErrMissing):
		return "missing in " + se.Key.Table
	case errors.Is(err, codec.ErrSyntax):
		return "syntax in " + se.Key.Name
	case se != nil:
		return "store"
	}
	return "other"
}

func main() {
	var s store.Store
	_, err := s.Get("a", "b")
	fmt.Println(err, explain(err), s.Dump() == "")
	s.Put("users", "ann", "x=1;y=2")
	s.Put("users", "b/b=b", "100%")
	s.Put("t;t", "", "")
	s.Put("users", "ann", "again")
	text := s.Dump()
	fmt.Println(text)
	t, err := store.Load(text)
	fmt.Println(explain(err), t.Dump() == text)
	for _, k := range []store.Key{{"users", "ann"}, {"users", "b/b=b"}, {"t;t", ""}, {"x", "y"}} {
		v, err := t.Get(k.Table, k.Name)
		fmt.Printf("%s|%s|%s|%s\n", k.Table, k.Name, v, explain(err))
	}
	for _, bad := range []string{"a/b=%zz", "a/b=c;d", "a/%4=c", "=/", "a/b=%41%5d;q/r=%"} {
		t, err := store.Load(bad)
		fmt.Println(err, "|", explain(err), "|", t.Dump())
	}
	d, err := codec.Decode("%ff%00")
	fmt.Println(len(d), d[0], d[1], err)
	fmt.Println(errors.Unwrap(&store.Error{Err: codec.ErrSyntax}) == codec.ErrSyntax, errors.Unwrap(codec.ErrSyntax))
}
