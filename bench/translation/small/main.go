package main

func greet(n int) {
	println("hello", n)
}

func main() {
	for i := 0; i < 3; i++ {
		greet(i)
	}
}
