// Numbers of 64 bits: hashes, random numbers, roots, powers and texts.
package main

import (
	"fmt"
	"strconv"
)

type random struct{ s [2]uint64 }

func (r *random) next() uint64 {
	a, b := r.s[0], r.s[1]
	a ^= a << 23
	a ^= a >> 17
	a ^= b ^ b>>26
	r.s[0], r.s[1] = b, a
	return a + b
}

func (r *random) below(n uint64) uint64 { return r.next() % n }

func fnv(s string) uint64 {
	h := uint64(14695981039346656037)
	for i := 0; i < len(s); i++ {
		h ^= uint64(s[i])
		h *= 1099511628211
	}
	return h
}

func mix(k uint64) uint64 {
	k ^= k >> 33
	k *= 0xff51afd7ed558ccd
	k ^= k >> 33
	k *= 0xc4ceb9fe1a85ec53
	return k ^ k>>33
}

// mul gives the product of two numbers in two halves.
func mul(a, b uint64) (high, low uint64) {
	const mask = 1<<32 - 1
	a0, a1, b0, b1 := a&mask, a>>32, b&mask, b>>32
	w := a0 * b0
	t := a1*b0 + w>>32
	m := t&mask + a0*b1
	return a1*b1 + t>>32 + m>>32, a * b
}

func mulMod(a, b, m uint64) (r uint64) {
	a %= m
	for ; b > 0; b >>= 1 {
		if b&1 == 1 {
			if r >= m-a {
				r -= m - a
			} else {
				r += a
			}
		}
		if a >= m-a {
			a -= m - a
		} else {
			a += a
		}
	}
	return r
}

func power(a, n, m uint64) uint64 {
	r := uint64(1)
	for ; n > 0; n /= 2 {
		if n%2 == 1 {
			r = mulMod(r, a, m)
		}
		a = mulMod(a, a, m)
	}
	return r
}

func root(n uint64) uint64 {
	low, high := uint64(0), uint64(1)<<32
	for high-low > 1 {
		mid := (low + high) / 2
		if mid*mid <= n && mid <= n/mid {
			low = mid
		} else {
			high = mid
		}
	}
	return low
}

func gcd(a, b int64) int64 {
	for b != 0 {
		a, b = b, a%b
	}
	if a < 0 {
		return -a
	}
	return a
}

func bits(n uint64) (count, lead, trail int) {
	for i := uint(0); i < 64; i++ {
		count += int(n >> i & 1)
		if n>>i == 0 {
			lead++
		}
		if n<<(63-i) == 0 {
			trail++
		}
	}
	return
}

func main() {
	r := &random{[2]uint64{1, 2}}
	for i := 0; i < 3; i++ {
		fmt.Print(r.next(), " ")
	}
	for i := 0; i < 6; i++ {
		fmt.Print(r.below(1000), " ")
	}
	fmt.Println()
	fmt.Println(fnv(""), fnv("hello"), fnv("sea")>>40)
	fmt.Printf("%x %x %016x\n", mix(1), mix(0xffffffffffffffff), mix(mix(5))>>20)
	fmt.Println(mul(1<<63, 6))
	fmt.Println(mul(0xffffffffffffffff, 0xffffffffffffffff))
	fmt.Println(mulMod(1<<62, 1<<61, 1<<63-25), power(3, 1000000, 1000000007), power(2, 64, 1<<63+29))
	fmt.Println(root(0), root(15), root(16), root(1<<62), root(18446744073709551615))
	fmt.Println(gcd(-1<<63, 6), gcd(1071, 462), gcd(0, -9), gcd(1<<40, 1<<35*3))
	fmt.Println(bits(0))
	fmt.Println(bits(0xf0f0000000000010))
	fmt.Println(bits(1<<64 - 1))

	var least, most int64 = -1 << 63, 1<<63 - 1
	fmt.Println(least, most, least-1, most+1, -least, least/-1, least%-1, most*most, least*3)
	fmt.Println(least>>63, uint64(least)>>63, most>>62, least>>70, least/10, least%10, most/-7, -7/int64(2), -7%int64(4))
	for _, s := range []uint{0, 1, 31, 32, 33, 63, 64, 200} {
		fmt.Print(uint64(3)<<s, " ", least>>s, " ", uint32(1)<<s, " ", int8(-100)>>s, "; ")
	}
	fmt.Println()
	n := int64(1234567890123)
	fmt.Println(int8(n), uint8(n), int16(n), uint16(n), int32(n), uint32(n), int(n), uint(n), uint64(-n))
	u := uint32(3000000000)
	fmt.Println(int32(u), int64(u), int64(int32(u)), uint64(u)*uint64(u), u*u, ^u, -u, u/7, u%7, int32(u)/7, int32(u)%7)
	fmt.Println(n == 1234567890123, n < 1<<40, n > -1, uint64(n) >= 1<<63, n&0xffff, n|1, n^n>>1, n&^0xff)
	n += 5
	n <<= 3
	n /= 9
	n--
	n %= 1000000000
	fmt.Println(n, strconv.FormatInt(n, 36), strconv.FormatInt(-n, 2))
	m := map[int64]string{1 << 40: "big", -1: "minus"}
	m[n] = "n"
	fmt.Println(m[1<<40], m[-1], m[n], len(m), m[0] == "")
	sum := int64(0)
	for i := int64(1); i <= 1000; i++ {
		sum += i * i * i
	}
	fmt.Println(sum, sum == 500500*500500)
	list := []uint64{5, 1 << 63, 7, 1<<63 - 1, 0}
	for i := range list {
		for j := i; j > 0 && list[j] < list[j-1]; j-- {
			list[j], list[j-1] = list[j-1], list[j]
		}
	}
	fmt.Println(list[0], list[1], list[2], list[3], list[4])
	switch x := uint64(1) << 40; x {
	case 1 << 39:
		fmt.Println("no")
	case 1 << 40:
		fmt.Println("case of 64 bits")
	}
}
