// Keys and values of maps in their corners.
package main

import "fmt"

type pair struct{ a, b string }
type deep struct {
	p    pair
	n    [2]int8
	flag bool
	wide int64
}
type name string
type grid [2][2]uint8

func main() {
	m := map[string]int{"": 1, "__proto__": 2, "constructor": 3, "$": 4, "toString": 5, "a\x00b": 6, "é": 7, "\xff": 8}
	m["hasOwnProperty"]++
	m["__proto__"] += 10
	sum := 0
	for k, v := range m {
		sum += v * len(k)
	}
	fmt.Println(len(m), sum, m[""], m["__proto__"], m["missing"], m["\xc3\xa9"], m["\xff"])
	delete(m, "constructor")
	delete(m, "nothing")
	_, ok := m["constructor"]
	_, ok2 := m["$"]
	fmt.Println(len(m), ok, ok2)

	p := map[pair]int{{"x,", "y"}: 1, {"x", ",y"}: 2, {"x", "y"}: 3, {"", "xy"}: 4, {"xy", ""}: 5, {"1:x", "2"}: 6, {"1", ":x2"}: 7}
	fmt.Println(len(p), p[pair{"x,", "y"}], p[pair{"x", ",y"}], p[pair{"xy", ""}], p[pair{"", ""}], p[pair{"1", ":x2"}])
	d := map[deep]string{}
	for i := 0; i < 6; i++ {
		k := deep{pair{fmt.Sprint(i % 2), "z"}, [2]int8{int8(i % 3), -1}, i%2 == 0, int64(i%2) << 40}
		d[k] += fmt.Sprint(i)
	}
	fmt.Println(len(d), d[deep{pair{"1", "z"}, [2]int8{1, -1}, false, 1 << 40}], d[deep{}] == "")
	g := map[grid]bool{{}: true}
	var e grid
	e[1][0] = 255
	g[e] = true
	e[1][0]++
	fmt.Println(len(g), g[e], g[grid{{}, {255, 0}}])
	ints := map[int]string{-1: "a", 1: "b", 0: "z", -2147483648: "c"}
	fmt.Println(ints[-1]+ints[1]+ints[-2147483648]+ints[0], ints[5] == "", len(ints))
	wides := map[uint64]int{1<<64 - 1: 1, 1 << 32: 2, 0: 3, 4294967295: 4}
	fmt.Println(wides[1<<64-1], wides[1<<32], wides[4294967295], wides[1<<63])
	bools := map[bool][]int{true: {1}}
	bools[false] = append(bools[false], 5, 6)
	bools[true] = append(bools[true], bools[false]...)
	fmt.Println(bools[true], bools[1 > 2])
	names := map[name]map[rune]uint8{"n": {'x': 1}}
	names["n"]['y'] -= 1
	names["m"] = map[rune]uint8{}
	names["m"]['z']++
	fmt.Println(names["n"]['y'], names["m"]['z'], names["none"]['q'], len(names["none"]))

	// changes while ranging
	big := map[int]int{}
	for i := 0; i < 50; i++ {
		big[i] = i
	}
	seen := 0
	for k := range big {
		seen++
		delete(big, k)
		if k%2 == 0 {
			delete(big, k+1)
		}
	}
	fmt.Println(len(big), seen >= 25 && seen <= 50)
	for i := 0; i < 5; i++ {
		big[i] = 1
	}
	turns := 0
	for k, v := range big {
		turns++
		big[k] = v + 1
		big[k+1000000] = -1
		if turns > 1000 {
			break
		}
	}
	total := 0
	for _, v := range big {
		if v > 0 {
			total += v
		}
	}
	fmt.Println(total, turns >= 5)
	for k := range map[string]int(nil) {
		fmt.Println("never", k)
	}
	for range map[int]int{1: 1, 2: 2} {
		total++
	}
	fmt.Println(total)

	type holder struct {
		inner map[string][2]int
		f     map[string]func(int) int
	}
	h := holder{map[string][2]int{"a": {1, 2}}, map[string]func(int) int{}}
	v := h.inner["a"]
	v[0] = 9
	h.inner["b"] = v
	k := h
	k.inner["a"] = [2]int{7, 7}
	h.f["double"] = func(n int) int { return 2 * n }
	h.f["nested"] = func(n int) int { return h.f["double"](n) + h.inner["b"][0] }
	fmt.Println(h.inner["a"][1], h.inner["b"][0], h.f["nested"](4), h.f["none"] == nil, k.f["double"] != nil)
	x := map[string]*holder{"h": &h}
	x["h"].inner = nil
	fmt.Println(h.inner == nil, len(h.inner), h.inner["q"][1], x["none"] == nil)
	i := map[string]interface{}{"s": "t", "n": 1, "m": map[string]int{"q": 5}, "nil": nil}
	_, is := i["n"].(string)
	n, has := i["m"].(map[string]int)["q"]
	nothing, there := i["nil"]
	fmt.Println(is, n, has, nothing == nil, there, i["s"] == "t")
}
