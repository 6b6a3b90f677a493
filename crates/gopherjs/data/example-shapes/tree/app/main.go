// Shapes: interfaces, embedding and type switches.
package main

import "fmt"

type shape interface {
	area() int
	scale(by int)
}

type named struct{ name string }

func (n named) String() string { return n.name }

type rectangle struct {
	named
	width, height int
}

func (r *rectangle) area() int { return r.width * r.height }

func (r *rectangle) scale(by int) {
	r.width *= by
	r.height *= by
}

// A square is a rectangle with one side.
type square struct{ rectangle }

func newSquare(side int) *square {
	return &square{rectangle{named{"square"}, side, side}}
}

// A stack is a shape of shapes.
type stack []shape

func (s stack) area() (sum int) {
	for _, part := range s {
		sum += part.area()
	}
	return sum
}

func (s stack) scale(by int) {
	for _, part := range s {
		part.scale(by)
	}
}

func describe(s shape) string {
	switch v := s.(type) {
	case *square:
		return fmt.Sprint(v, " of side ", v.width)
	case fmt.Stringer:
		return v.String()
	case stack:
		text := "stack of"
		for _, part := range v {
			text += " [" + describe(part) + "]"
		}
		return text
	}
	return "nothing"
}

func main() {
	door := &rectangle{named{"door"}, 2, 5}
	tile := newSquare(3)
	all := stack{door, tile, stack{newSquare(1), door}}
	fmt.Println(describe(all), all.area())
	tile.scale(2)
	fmt.Println(describe(tile), tile.area(), describe(nil))
	all.scale(2)
	fmt.Println(door.width, door.height, all.area())
	var s shape = tile
	_, is := s.(fmt.Stringer)
	_, same := s.(*rectangle)
	fmt.Println(is, same, s == all[1])
}
