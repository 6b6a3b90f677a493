package main

func main() {
	ready := make(chan bool, 100)
	start := make(chan bool)
	sum := make(chan int)
	for i := 0; i < 100000; i++ {
		go func(i int) {
			ready <- true
			<-start
			sum <- i
		}(i)
	}
	for i := 0; i < 100000; i++ {
		<-ready
	}
	println("all wait")
	close(start)
	s := 0
	for i := 0; i < 100000; i++ {
		s += <-sum
	}
	println(s)
}
