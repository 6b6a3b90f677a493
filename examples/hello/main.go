package main

func main() {
	println("Hello from Go.")
	println("This line was printed by a script that is proved to do what its source does.")
}
