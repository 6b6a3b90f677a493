package main

import "fmt"

func pop(x uint64) (n int) {
	for ; x != 0; x &= x - 1 {
		n++
	}
	return
}

func popSwar(x uint32) int {
	x -= x >> 1 & 0x55555555
	x = x&0x33333333 + x>>2&0x33333333
	x = (x + x>>4) & 0x0f0f0f0f
	return int(x * 0x01010101 >> 24)
}

func reverse(x uint32) uint32 {
	x = x>>1&0x55555555 | x&0x55555555<<1
	x = x>>2&0x33333333 | x&0x33333333<<2
	x = x>>4&0x0f0f0f0f | x&0x0f0f0f0f<<4
	return x<<24 | x&0xff00<<8 | x>>8&0xff00 | x>>24
}

func rotl64(x uint64, k uint) uint64 { return x<<(k%64) | x>>((64-k)%64) }
func rotl8(x uint8, k uint) uint8    { return x<<(k&7) | x>>(8-k&7) }

func log2(x uint64) int {
	n := -1
	for s := uint(32); s > 0; s /= 2 {
		if x>>s != 0 {
			x >>= s
			n += int(s)
		}
	}
	return n + int(x&1)
}

func gray(n uint) uint { return n ^ n>>1 }

func ungray(g uint) (n uint) {
	for ; g > 0; g >>= 1 {
		n ^= g
	}
	return
}

func isqrt(n uint64) uint64 {
	var r uint64
	for b := uint64(1) << 62; b != 0; b >>= 2 {
		if n >= r+b {
			n -= r + b
			r = r>>1 + b
		} else {
			r >>= 1
		}
	}
	return r
}

func morton(x, y uint16) (m uint32) {
	for i := uint(0); i < 16; i++ {
		m |= uint32(x>>i&1)<<(2*i) | uint32(y>>i&1)<<(2*i+1)
	}
	return
}

func subsets(mask uint8, f func(uint8)) {
	for s := mask; ; s = (s - 1) & mask {
		f(s)
		if s == 0 {
			return
		}
	}
}

type set [4]uint64

func (s *set) add(i int)     { s[i/64] |= 1 << uint(i%64) }
func (s *set) drop(i int)    { s[i>>6] &^= 1 << (uint(i) & 63) }
func (s set) has(i int) bool { return s[i/64]>>uint(i%64)&1 == 1 }
func (s set) size() (n int) {
	for _, w := range s {
		n += pop(w)
	}
	return
}

func abs(x int32) int32 {
	m := x >> 31
	return (x ^ m) - m
}

func avg(a, b int) int { return a&b + (a^b)>>1 }

func main() {
	for _, x := range []uint64{0, 1, 0x80, 0xdeadbeef, 1 << 63, 1<<64 - 1} {
		fmt.Println(pop(x), popSwar(uint32(x)), reverse(uint32(x)), log2(x), isqrt(x), rotl64(x, 13), rotl64(x, 64), rotl8(uint8(x), 3))
	}
	ok := true
	for i := uint(0); i < 1000; i++ {
		ok = ok && ungray(gray(i)) == i && pop(uint64(gray(i)^gray(i+1))) == 1
	}
	fmt.Println(ok, gray(1<<31), morton(0xffff, 0), morton(3, 5), morton(0x1234, 0xabcd))
	n, sum := 0, 0
	subsets(0xb5, func(s uint8) { n++; sum = sum*3 + int(s) })
	fmt.Println(n, sum)

	var s set
	for i := 0; i < 256; i += 1 + i%5 {
		s.add(i)
	}
	t := s
	t.drop(0)
	t.add(255)
	fmt.Println(s.size(), t.size(), s.has(0), t.has(0), s.has(255), t.has(255), s == t, s[0])
	fmt.Println(abs(-5), abs(5), abs(-1<<31), avg(-7, 4), avg(2147483647, 2147483645), avg(-2147483648, -2147483646))

	// counts at and past the width, signed and unsigned
	var i8 int8 = -128
	var u8 uint8 = 255
	var i32 int32 = -1 << 31
	var i64 int64 = -1 << 63
	for _, k := range []uint{0, 1, 7, 8, 31, 32, 33, 63, 64, 200} {
		fmt.Println(k, i8>>k, u8<<k, u8>>k, i32>>k, i32<<k, i64>>k, uint64(i64)>>k, i64>>k<<k, 1<<k, int64(1)<<k)
	}
	fmt.Println(^0, ^u8, -i8, 5&^3, -5&^3, -5|3, -5^3, -5%3, -5/3, 7&-7, i8-1, u8+1)
	var h uint16 = 0xff00
	h <<= 4
	h |= 0xf
	h ^= 0xffff
	h &^= 0x0f00
	fmt.Println(h, h>>4, ^h, -h)
}
