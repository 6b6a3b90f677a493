package main

import "fmt"

func fnv1a64(s string) uint64 {
	h := uint64(14695981039346656037)
	for i := 0; i < len(s); i++ {
		h ^= uint64(s[i])
		h *= 1099511628211
	}
	return h
}

func fnv1a32(s string) uint32 {
	h := uint32(2166136261)
	for i := 0; i < len(s); i++ {
		h = (h ^ uint32(s[i])) * 16777619
	}
	return h
}

type xorshift uint64

func (x *xorshift) next() uint64 {
	v := uint64(*x)
	v ^= v >> 12
	v ^= v << 25
	v ^= v >> 27
	*x = xorshift(v)
	return v * 0x2545F4914F6CDD1D
}

type splitmix struct{ s uint64 }

func (m *splitmix) next() uint64 {
	m.s += 0x9e3779b97f4a7c15
	z := m.s
	z = (z ^ z>>30) * 0xbf58476d1ce4e5b9
	z = (z ^ z>>27) * 0x94d049bb133111eb
	return z ^ z>>31
}

func murmurMix(k uint32) uint32 {
	k ^= k >> 16
	k *= 0x85ebca6b
	k ^= k >> 13
	k *= 0xc2b2ae35
	return k ^ k>>16
}

func adler(s []byte) uint32 {
	a, b := uint32(1), uint32(0)
	for _, c := range s {
		a = (a + uint32(c)) % 65521
		b = (b + a) % 65521
	}
	return b<<16 | a
}

var crcTable = func() (t [256]uint32) {
	for i := range t {
		c := uint32(i)
		for k := 0; k < 8; k++ {
			if c&1 == 1 {
				c = c>>1 ^ 0xedb88320
			} else {
				c >>= 1
			}
		}
		t[i] = c
	}
	return
}()

func crc32(s string) uint32 {
	c := ^uint32(0)
	for i := 0; i < len(s); i++ {
		c = crcTable[byte(c)^s[i]] ^ c>>8
	}
	return ^c
}

// mul128 gives both halves of a product.
func mul128(x, y uint64) (hi, lo uint64) {
	const mask = 1<<32 - 1
	x0, x1, y0, y1 := x&mask, x>>32, y&mask, y>>32
	w0 := x0 * y0
	t := x1*y0 + w0>>32
	w1 := t&mask + x0*y1
	return x1*y1 + t>>32 + w1>>32, x * y
}

func modpow(b, e, m uint64) uint64 {
	r := uint64(1)
	for b %= m; e > 0; e /= 2 {
		if e%2 == 1 {
			r = r * b % m
		}
		b = b * b % m
	}
	return r
}

func main() {
	for _, s := range []string{"", "a", "foobar", "The quick brown fox jumps over the lazy dog", "h\u00e9\x00\xff"} {
		fmt.Printf("%016x %08x %08x %08x %d\n", fnv1a64(s), fnv1a32(s), crc32(s), adler([]byte(s)), fnv1a64(s))
	}
	x := xorshift(88172645463325252)
	m := splitmix{}
	for i := 0; i < 5; i++ {
		fmt.Printf("%d %d %d\n", x.next(), m.next(), murmurMix(uint32(i)))
	}
	var sum uint64
	var signed int64
	low := 0
	for i := 0; i < 3000; i++ {
		v := m.next()
		sum = sum*6364136223846793005 + v
		signed ^= int64(v) / (int64(i) + 1)
		signed -= int64(v) % 1000003
		if v>>40 < v&0xffffff {
			low++
		}
	}
	fmt.Println(sum, signed, low, uint8(sum), int8(sum), int16(sum), int32(sum), uint32(sum))
	hi, lo := mul128(0xfedcba9876543210, 0x0123456789abcdef)
	fmt.Printf("%x %x\n", hi, lo)
	hi, lo = mul128(1<<64-1, 1<<64-1)
	fmt.Println(hi, lo)
	fmt.Println(modpow(3, 1000003, 4294967291), modpow(2, 1<<62, 1000000007), modpow(7, 0, 13))
	for _, d := range []int64{1, -1, 3, -7, 1 << 31, -1 << 33, 1<<62 + 1, -1 << 63} {
		n := int64(-1<<63 + 12345)
		fmt.Println(d, n/d, n%d, uint64(n)/uint64(d), uint64(n)%uint64(d))
	}
}
