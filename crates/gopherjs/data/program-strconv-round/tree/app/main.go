package main

import (
	"fmt"
	"strconv"
	"strings"
)

func digits(n int64, base int) string {
	if n == 0 {
		return "0"
	}
	neg := n < 0
	var b []byte
	for n != 0 {
		d := n % int64(base)
		if d < 0 {
			d = -d
		}
		b = append(b, "0123456789abcdefghijklmnopqrstuvwxyz"[d])
		n /= int64(base)
	}
	if neg {
		b = append(b, '-')
	}
	for i, j := 0, len(b)-1; i < j; i, j = i+1, j-1 {
		b[i], b[j] = b[j], b[i]
	}
	return string(b)
}

func roman(n int) string {
	var b strings.Builder
	for i, v := range [...]int{1000, 900, 500, 400, 100, 90, 50, 40, 10, 9, 5, 4, 1} {
		for ; n >= v; n -= v {
			b.WriteString([]string{"M", "CM", "D", "CD", "C", "XC", "L", "XL", "X", "IX", "V", "IV", "I"}[i])
		}
	}
	return b.String()
}

func unroman(s string) (n int) {
	val := map[byte]int{'I': 1, 'V': 5, 'X': 10, 'L': 50, 'C': 100, 'D': 500, 'M': 1000}
	for i := 0; i < len(s); i++ {
		v := val[s[i]]
		if i+1 < len(s) && v < val[s[i+1]] {
			v = -v
		}
		n += v
	}
	return
}

func main() {
	values := []int64{0, 1, -1, 7, 35, 36, -255, 1 << 31, -1 << 31, 1<<32 - 1, 1<<53 + 1, -1<<53 - 1, 1<<63 - 1, -1 << 63}
	bad := 0
	for _, v := range values {
		for base := 2; base <= 36; base++ {
			s := strconv.FormatInt(v, base)
			w, err := strconv.ParseInt(s, base, 64)
			if s != digits(v, base) || err != nil || w != v {
				bad++
				fmt.Println("differs", v, base, s, w)
			}
		}
		fmt.Println(strconv.FormatInt(v, 10), strconv.FormatInt(v, 16), strconv.FormatInt(v, 36))
	}
	fmt.Println("bad", bad)

	for _, s := range []string{"0", "-0", "+7", "007", "2147483647", "-2147483648", "2147483648", "-2147483649", "", "-", "+", "1 ", " 1", "1x", "0x10", "--1", "99999999999999999999", "1_000"} {
		if n, err := strconv.Atoi(s); err != nil {
			fmt.Println(err)
		} else {
			fmt.Println(s, n)
		}
	}
	for _, t := range []struct {
		s          string
		base, bits int
	}{
		{"7f", 16, 8}, {"80", 16, 8}, {"-80", 16, 8}, {"-81", 16, 8}, {"FF", 16, 64}, {"zz", 36, 32}, {"102", 2, 0},
		{"32767", 10, 16}, {"32768", 10, 16}, {"9223372036854775807", 10, 64}, {"9223372036854775808", 10, 64},
		{"-9223372036854775808", 10, 64}, {"-9223372036854775809", 10, 64}, {"4294967296", 10, 0}, {"777", 8, 10},
	} {
		n, err := strconv.ParseInt(t.s, t.base, t.bits)
		if err != nil {
			n = -7
		}
		fmt.Println(t.s, t.base, t.bits, n, err == nil)
	}
	for _, s := range []string{"true", "false", "1", "0", "t", "F", "TRUE", "False", "yes", "", "tRUE"} {
		b, err := strconv.ParseBool(s)
		fmt.Println(s, b && err == nil, err == nil, strconv.FormatBool(err != nil))
	}
	ok := true
	for n := 1; n < 4000; n += 53 {
		ok = ok && unroman(roman(n)) == n
	}
	fmt.Println(ok, roman(1994), roman(3888), unroman("MCMXLIV"))
	sum := 0
	for i := -1000; i < 1000; i += 37 {
		n, err := strconv.Atoi(strconv.Itoa(i))
		if err != nil || n != i {
			fmt.Println("lost", i)
		}
		sum += len(strconv.Itoa(i))
	}
	fmt.Println(sum)
}
