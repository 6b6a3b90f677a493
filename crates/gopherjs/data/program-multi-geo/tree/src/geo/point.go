package geo

import "fmt"

// Origin is where all begins.
var Origin = Point{}

var made int

type Point struct{ X, Y int }

func New(x, y int) Point {
	made++
	return Point{x, y}
}

func Made() int { return made }

func (p Point) Add(q Point) Point { return Point{p.X + q.X, p.Y + q.Y} }

func (p *Point) Move(dx, dy int) *Point {
	p.X += dx
	p.Y += dy
	return p
}

func (p Point) String() string { return fmt.Sprintf("(%d,%d)", p.X, p.Y) }

func (p Point) cross(q Point) int { return p.X*q.Y - p.Y*q.X }
