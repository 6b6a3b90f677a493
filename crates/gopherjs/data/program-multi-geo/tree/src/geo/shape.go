package geo

import "errors"

var ErrEmpty = errors.New("geo: empty shape")

type Shape interface {
	Area2() int
	bounds() (lo, hi Point)
}

type Polygon []Point

func (g Polygon) Area2() int {
	s := 0
	for i, p := range g {
		s += p.cross(g[(i+1)%len(g)])
	}
	if s < 0 {
		return -s
	}
	return s
}

func (g Polygon) bounds() (lo, hi Point) {
	lo, hi = g[0], g[0]
	for _, p := range g[1:] {
		lo = Point{min(lo.X, p.X), min(lo.Y, p.Y)}
		hi = Point{max(hi.X, p.X), max(hi.Y, p.Y)}
	}
	return
}

type Box struct {
	Lo, Hi Point
	label  string
}

func (b Box) Area2() int             { return 2 * (b.Hi.X - b.Lo.X) * (b.Hi.Y - b.Lo.Y) }
func (b Box) bounds() (lo, hi Point) { return b.Lo, b.Hi }
func (b Box) Label() string          { return b.label }

func Around(ss ...Shape) (Box, error) {
	if len(ss) == 0 {
		return Box{}, ErrEmpty
	}
	lo, hi := ss[0].bounds()
	for _, s := range ss[1:] {
		l, h := s.bounds()
		lo = Point{min(lo.X, l.X), min(lo.Y, l.Y)}
		hi = Point{max(hi.X, h.X), max(hi.Y, h.Y)}
	}
	return Box{lo, hi, "around"}, nil
}

func min(a, b int) int {
	if a < b {
		return a
	}
	return b
}

func max(a, b int) int {
	if a > b {
		return a
	}
	return b
}
