package main

import "fmt"

type (
	small int8
	wide  uint64
	size  uintptr
)

const (
	big      = 1 << 100
	less     = big>>98 - 1
	mask     = 1<<32 - 1
	letter   = 'a' + 1
	typed    = small(-128)
	maxInt   = int(^uint(0) >> 1)
	minInt   = -maxInt - 1
	allOnes  = ^wide(0)
	negShift = -1 >> 3
)

const (
	_      = iota
	kb, mb = 1 << (10 * iota), 1 << (20 * iota)
	mb2, _
)

func report(name string, xs ...interface{}) {
	fmt.Print(name)
	for _, x := range xs {
		fmt.Print(" ", x)
	}
	fmt.Println()
}

func main() {
	report("consts", less, letter, typed, kb, mb, mb2, maxInt, minInt, allOnes, negShift, string(rune(letter)))
	var i8 int8 = 127
	var u8 uint8 = 250
	var i16 int16 = -32768
	var u16 uint16 = 65535
	var i32 int32 = 2147483647
	var u32 uint32 = 4294967290
	var i64 int64 = 9223372036854775807
	var u64 uint64 = 18446744073709551615
	i := 2147483647
	var u uint = 4294967295
	var p size = 4294967295
	report("inc", i8+1, u8+10, i16-1, u16+1, i32+1, u32+10, i64+1, u64+1, i+1, u+1, p+2)
	report("mul", i8*i8, u8*u8, i16*i16, u16*u16, i32*i32, u32*u32, i64*i64, u64*u64, i*i, u*u, p*p)
	report("neg", -i8, -u8, -i16, -u16, -i32, -u32, -i64, -u64, -i, -u, -p)
	report("not", ^i8, ^u8, ^i16, ^u16, ^i32, ^u32, ^i64, ^u64, ^i, ^u, ^p)
	report("to int8", int8(u8), int8(i16), int8(u16), int8(i32), int8(u32), int8(i64), int8(u64), int8(i+129))
	report("to uint16", uint16(i8), uint16(u8), uint16(i16), uint16(-i32), uint16(i64-70000), uint16(u64-1))
	report("to int32", int32(u32), int32(i64), int32(u64>>1), int32(i8), int32(u), rune(p))
	report("to uint32", uint32(i8-127), uint32(i16), uint32(i64), uint32(u64-7), uint32(i))
	report("to int64", int64(i8), int64(u8), int64(i16), int64(u32), int64(u64), int64(i), int64(u), int64(p))
	report("to uint64", uint64(i8), uint64(i16), uint64(i32), uint64(u32), uint64(-i64), uint64(i), uint64(u), wide(i16))

	type pair struct{ a, b int64 }
	for _, q := range []pair{{7, 2}, {-7, 2}, {7, -2}, {-7, -2}, {-1 << 63, -1}, {-1 << 63, 2}, {1<<63 - 1, 1 << 32}, {1 << 40, 3}, {-1 << 40, 1<<32 + 1}} {
		report("div", q.a, q.b, q.a/q.b, q.a%q.b, q.a/q.b*q.b+q.a%q.b == q.a)
	}
	minus := -1
	lo := minInt
	m8, m16 := int8(-128), int16(-32768)
	report("least", lo/minus, lo%minus, m8/int8(minus), m8%int8(minus), m16/-1, -lo, lo-1, lo*minus)
	report("unsigned", u64/3, u64%1000, (u64-5)/(u64-6), u32/7, u32%7, u/2, u16/256, (u64>>1+1)/10)

	x, y := uint64(1), int64(1)
	for k := 0; k < 80; k++ {
		x = x*3 + uint64(k)
		y = y*-5 + int64(k)
	}
	report("loop", x, y, x > uint64(y), int64(x) > y, uint32(x) < uint32(y))
	n := 0
	for b := uint8(200); b != 0; b++ {
		n++
	}
	for s := small(100); s > 0; s += 3 {
		n++
	}
	report("turns", n)
	i32 = -5
	u32 = 3
	i32 <<= u32
	i8 >>= 1
	u8 ^= 0xff
	i64 &^= 0xff
	i64 |= 1
	u64 %= 1000 - 1
	report("op=", i32, i8, u8, i64, u64)
	var c byte = 'z'
	c -= 'a' - 'A'
	r := 'x' + 1
	r *= 2
	report("runes", c, string(rune(c)), r, 'a'*2, "abc"[1]-'a', len("abc")*int(c))
	report("cmp", i8 < 64, u32 >= mask>>30, i64 == i64|1, -1 < 0, u64 < 1000, typed == -128, less == 3)
}
