package main

func main() {
	var a, b int32 = 1, 7
	for i := int32(0); i < 200000000; i++ {
		a = a + b ^ i
		b = b - a>>3
	}
	println(a, b)
}
