package main

func sum(xs []int) int {
	s := 0
	for i := 0; i < len(xs); i++ {
		s += xs[i] ^ i
	}
	return s
}

func main() {
	xs := make([]int, 100000)
	for i := range xs {
		xs[i] = i * 3
	}
	s := 0
	for k := 0; k < 2000; k++ {
		s += sum(xs)
	}
	println(s)
}
