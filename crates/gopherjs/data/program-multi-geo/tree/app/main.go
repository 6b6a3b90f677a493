package main

import (
	"fmt"

	g "geo"
)

type located struct {
	g.Point
	name string
}

// String hides the promoted one.
func (l located) String() string { return l.name + "@" + l.Point.String() }

type fakeBounds struct{ g.Polygon }

func (fakeBounds) Area2() int { return 1000 }

type local struct{}

func (local) Area2() int               { return 1 }
func (local) bounds() (lo, hi g.Point) { return }

func main() {
	p := g.New(1, 2)
	p.Move(3, 4).Move(-1, -1)
	q := g.New(0, 0).Add(p)
	fmt.Println(p, q, p == q, g.Origin, g.Made())
	tri := g.Polygon{{0, 0}, {4, 0}, {0, 3}}
	box := g.Box{Lo: g.Point{X: -1, Y: -2}, Hi: p}
	fmt.Println(tri.Area2(), box.Area2(), box.Label() == "")
	var ss []g.Shape
	if _, err := g.Around(ss...); err != nil {
		fmt.Println("error:", err, err == g.ErrEmpty)
	}
	ss = append(ss, tri, box, &box, fakeBounds{tri})
	around, err := g.Around(ss...)
	fmt.Println(around.Lo, around.Hi, around.Label(), err)
	n := 0
	for _, s := range ss {
		n += s.Area2()
	}
	fmt.Println(n)
	var x interface{} = local{}
	_, ok := x.(g.Shape)
	_, ok2 := x.(interface{ Area2() int })
	_, ok3 := x.(interface{ bounds() (lo, hi g.Point) })
	fmt.Println(ok, ok2, ok3)
	l := located{p, "home"}
	l.Move(1, 1)
	l.X *= 10
	fmt.Println(l, l.Point, p, l.Add(g.Origin))
	seen := map[g.Point]string{g.Origin: "o", {5, 5}: "far"}
	fmt.Println(seen[g.Point{}], seen[g.New(5, 5)], len(seen[p]), g.Made())
	g.Origin.Move(9, 9)
	fmt.Println(g.Origin, len(seen))
}
