package main

func name(n int) string {
	s := "k"
	for n > 0 {
		s += string(rune('0' + n%10))
		n /= 10
	}
	return s
}

func main() {
	keys := make([]string, 100000)
	for i := range keys {
		keys[i] = name(i)
	}
	m := map[string]int{}
	for r := 0; r < 10; r++ {
		for i, k := range keys {
			m[k] += i
		}
	}
	s := 0
	for _, k := range keys {
		s ^= m[k]
	}
	println(len(m), s)
}
