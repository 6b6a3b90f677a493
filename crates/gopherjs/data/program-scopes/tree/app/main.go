// Scopes, constants, switches and labels in all their forms.
package main

import "fmt"

const (
	a, b = iota, iota * 10
	c, d
	_, _
	e, f
)

const (
	kb = 1 << (10 * (iota + 1))
	mb
	big = 1 << 100 >> 98
)

type weekday uint8

const (
	monday weekday = iota + 1
	tuesday
	wednesday
	sunday weekday = 7
	text           = "con" + "stant"
	letter         = 'a' + 1
	mask           = ^uint8(0) &^ 0x0f
)

var x = "package"

func shadow(x int) (y string) {
	if x := x * 2; x > 10 {
		y := "inner"
		y += fmt.Sprint(x)
		return y
	} else if y := x - 1; y > 5 {
		x := y
		return fmt.Sprint("else ", x, y)
	}
	{
		x := 'x'
		y = string(x)
	}
	for x := range []int{5, 6} {
		y += fmt.Sprint(x)
	}
	return
}

func grade(n int) (s string) {
	switch {
	case n > 90:
		s += "excellent "
		fallthrough
	case n > 70:
		s += "good "
		if n == 80 {
			break
		}
		fallthrough
	case n < 0:
		s += "counted "
	case n == 50:
		return "half"
	default:
		s = "low"
	}
	return s
}

func kind(v interface{}) string {
	switch v := v.(type) {
	case nil:
		return "nil"
	case int, int64:
		return fmt.Sprint("number ", v)
	case weekday:
		return fmt.Sprint("day ", uint8(v))
	case func() string:
		return "function " + v()
	case error, fmt.Stringer:
		return fmt.Sprint("text ", v)
	case []int:
		if len(v) == 0 {
			return "empty"
		}
		return kind(v[0])
	}
	return "other"
}

func (d weekday) String() string {
	switch d {
	case monday, tuesday, wednesday:
		return [...]string{1: "Mon", 2: "Tue", 3: "Wed"}[d]
	case sunday:
		return "Sun"
	}
	return fmt.Sprintf("day(%d)", uint8(d))
}

func search(grid [][]int, want int) (row, col, steps int) {
	row, col = -1, -1
rows:
	for i := range grid {
	cols:
		for j := 0; ; j++ {
			steps++
			switch {
			case j == len(grid[i]):
				continue rows
			case grid[i][j] < 0:
				continue cols
			case grid[i][j] == want:
				row, col = i, j
				break rows
			case grid[i][j] > 1000:
				break cols
			}
		}
		steps += 100
	}
	return
}

func order(calls *[]int, n int) int { *calls = append(*calls, n); return n }

func main() {
	fmt.Println(a, b, c, d, e, f, kb, mb, big, text, string(rune(letter)), mask)
	fmt.Println(shadow(6), shadow(4), shadow(1), x)
	for _, n := range []int{95, 80, 75, -5, 50, 10} {
		fmt.Print(grade(n), "; ")
	}
	fmt.Println()
	fmt.Println(monday, sunday, weekday(5), wednesday-tuesday)
	for _, v := range []interface{}{nil, 1, int64(2), tuesday, func() string { return "f" }, fmt.Errorf("e"), []int{}, []int{9}, "s", 2 > 1} {
		fmt.Print(kind(v), "; ")
	}
	fmt.Println()
	fmt.Println(search([][]int{{1, -1, 2}, {}, {3, 2000, 4}, {-5, 4}}, 4))
	fmt.Println(search(nil, 1))

	var calls []int
	switch order(&calls, 3) {
	case order(&calls, 1), order(&calls, 2), order(&calls, 3), order(&calls, 4):
		fmt.Println("found", calls)
	case order(&calls, 5):
	}
	switch x := order(&calls, 8); {
	default:
		fmt.Println("default", x, len(calls))
	case x < 5:
		fmt.Println("small")
	}
	switch {
	}
	var i int
loop:
	for {
		switch i++; i {
		case 1, 3, 5:
			continue loop
		case 6:
			break loop
		default:
			i++
		}
		if i > 100 {
			break
		}
	}
	fmt.Println(i)
	{
		fmt := "shadowed"
		_ = fmt
	}
	var int = 5
	true := int > 6
	fmt.Println(int, true, !true)
	type pair struct{ a, b string }
	p := pair{b: "b"}
	{
		type pair [2]string
		q := pair{"x", "y"}
		fmt.Println(q[1], p.b, len(q))
	}
	func() {
		defer func(n string) { fmt.Println("deferred", n, x) }(x)
		x = "changed"
	}()
	var fs [3]func() string
	for i, s := range [...]string{"p", "q", "r"} {
		i, s := i, s
		fs[i] = func() string { s += s; return s + fmt.Sprint(i) }
	}
	fmt.Println(fs[0](), fs[0](), fs[2](), fs[1]())
}
