package main

import "fmt"

type color uint8

const (
	red color = iota + 1
	green
	_
	blue
	last = iota
)

type flags uint

const (
	read flags = 1 << iota
	write
	exec
	all = read | write | exec
)

func (c color) String() string {
	switch c {
	case red:
		return "red"
	case green:
		return "green"
	case blue:
		return "blue"
	}
	return fmt.Sprintf("color(%d)", uint8(c))
}

func (f flags) String() string {
	if f == 0 {
		return "none"
	}
	s := ""
	for i, n := range []string{"r", "w", "x"} {
		if f&(1<<uint(i)) != 0 {
			s += n
		} else {
			s += "-"
		}
	}
	if rest := f &^ all; rest != 0 {
		s += fmt.Sprint("+", uint(rest))
	}
	return s
}

func classify(n int) (s string) {
	switch {
	case n < 0:
		s = "negative "
		fallthrough
	case n == 0:
		s += "not positive "
		if n == -7 {
			break
		}
		fallthrough
	default:
		s += "number"
	case n > 100:
		return "large"
	}
	return s + "."
}

func typed(x interface{}) string {
	switch v := x.(type) {
	case nil:
		return "nil"
	case int, int64:
		return fmt.Sprint("integer ", v)
	case color:
		return "color " + v.String()
	case fmt.Stringer:
		return "stringer " + v.String()
	case error:
		return "error " + v.Error()
	case []int:
		return fmt.Sprint("slice ", len(v))
	case map[string]int:
		return fmt.Sprint("map ", v["k"])
	case func(int) int:
		return fmt.Sprint("func ", v(20))
	case chan int:
		return fmt.Sprint("chan ", cap(v))
	case *int:
		*v++
		return fmt.Sprint("pointer ", *v)
	case [2]bool:
		return fmt.Sprint("array ", v[0], v[1])
	case struct{ a, b int }:
		return fmt.Sprint("struct ", v.a+v.b)
	case interface{ Area() int }:
		return "area"
	default:
		return "other"
	}
}

func tell(s string, v int) int {
	fmt.Print(s, " ")
	return v
}

func order(x int) {
	switch tell("tag", x) {
	case tell("a", 1), tell("b", 2):
		fmt.Println("low")
	case tell("c", 3):
		fmt.Println("three")
	default:
		fmt.Println("none")
	case tell("d", 4):
		fmt.Println("four")
	}
}

func loops() (out []int) {
outer:
	for i := 0; ; i++ {
	inner:
		for j := 0; j < 5; j++ {
			switch {
			case j == 1:
				continue
			case i == 1:
				continue outer
			case i == 3 && j == 2:
				break inner
			case i == 5:
				break outer
			case j == 4:
				break
			default:
				out = append(out, i*10+j)
			}
		}
		out = append(out, -i)
	}
block:
	switch {
	default:
		for range out {
			if len(out) > 3 {
				break block
			}
		}
		out = nil
	}
	return
}

func main() {
	for c := red; c <= last; c++ {
		fmt.Print(c, " ")
	}
	fmt.Println(last, red < blue, color(200), blue)
	fmt.Println(read, write|exec, all, all&^write, flags(0), flags(40), ^flags(0)&7)
	fmt.Printf("%v %d %s|%6v|%-6v|%x\n", green, green, blue, red, exec, uint(all))
	for _, n := range []int{-7, -3, 0, 5, 101} {
		fmt.Println(n, classify(n))
	}
	k := 41
	for _, x := range []interface{}{nil, 5, int64(6), int8(7), green, all, fmt.Errorf("e%d", 1), []int{1, 2}, map[string]int{"k": 9}, func(i int) int { return i * 2 },
		make(chan int, 3), &k, [2]bool{true, false}, struct{ a, b int }{3, 4}, "text", struct{}{}, uint(1), []string(nil)} {
		fmt.Print(typed(x), ", ")
	}
	fmt.Println(k)
	for i := 1; i <= 5; i++ {
		order(i)
	}
	fmt.Println(loops())
	switch x := interface{}(k).(type) {
	case string:
		fmt.Println("string", x)
	}
	switch x := 5; x {
	}
	switch y := k % 10; {
	case y == 2:
		fmt.Println("two")
	}
}
