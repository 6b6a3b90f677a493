package main

import (
	"fmt"
	"strings"
)

func encode(r rune) []byte {
	switch {
	case r < 0 || r > 0x10ffff || 0xd800 <= r && r <= 0xdfff:
		return encode(0xfffd)
	case r < 0x80:
		return []byte{byte(r)}
	case r < 0x800:
		return []byte{0xc0 | byte(r>>6), 0x80 | byte(r&0x3f)}
	case r < 0x10000:
		return []byte{0xe0 | byte(r>>12), 0x80 | byte(r>>6&0x3f), 0x80 | byte(r&0x3f)}
	}
	return []byte{0xf0 | byte(r>>18), 0x80 | byte(r>>12&0x3f), 0x80 | byte(r>>6&0x3f), 0x80 | byte(r&0x3f)}
}

func decode(s string) (rune, int) {
	const bad = 0xfffd
	c := s[0]
	need, min := 0, rune(0)
	r := rune(c)
	switch {
	case c < 0x80:
		return r, 1
	case c>>5 == 6:
		need, min, r = 1, 0x80, r&0x1f
	case c>>4 == 14:
		need, min, r = 2, 0x800, r&0xf
	case c>>3 == 30:
		need, min, r = 3, 0x10000, r&7
	default:
		return bad, 1
	}
	for i := 1; i <= need; i++ {
		if i >= len(s) || s[i]>>6 != 2 {
			return bad, 1
		}
		r = r<<6 | rune(s[i]&0x3f)
	}
	if r < min || r > 0x10ffff || r>>11 == 0x1b {
		return bad, 1
	}
	return r, need + 1
}

func reversed(s string) string {
	rs := []rune(s)
	for i, j := 0, len(rs)-1; i < j; i, j = i+1, j-1 {
		rs[i], rs[j] = rs[j], rs[i]
	}
	return string(rs)
}

func hex(s string) string {
	var parts []string
	for i := 0; i < len(s); i++ {
		parts = append(parts, fmt.Sprintf("%02x", s[i]))
	}
	return strings.Join(parts, " ")
}

func agree(s string) bool {
	var ours, theirs []rune
	var at []int
	for i := 0; i < len(s); {
		r, n := decode(s[i:])
		ours = append(ours, r)
		at = append(at, i)
		i += n
	}
	k := 0
	for i, r := range s {
		if at[k] != i || ours[k] != r {
			return false
		}
		k++
	}
	theirs = []rune(s)
	if len(theirs) != len(ours) || k != len(ours) {
		return false
	}
	for i := range ours {
		if ours[i] != theirs[i] {
			return false
		}
	}
	return true
}

func main() {
	for _, r := range []rune{'a', 0x7f, 0x80, 'ß', 0x7ff, 0x800, '世', 0xd7ff, 0xd800, 0xdfff, 0xe000, 0xfffd, 0xffff, 0x10000, '\U0001F600', 0x10ffff, 0x110000, -1} {
		own := string(encode(r))
		fmt.Println(r, hex(own), own == string(r), len(string(r)))
	}
	for _, s := range []string{
		"", "abc", "h\u00e9llo, \u4e16\u754c", "\xff", "a\xc3", "\xc3\x28", "\xe2\x82", "\xe2\x28\xa1", "\xf0\x9f\x98\x80!",
		"\xf0\x9f\x98", "\xed\xa0\x80", "\xc0\x80", "\xf4\x90\x80\x80", "\x80\x80", "ab\xe4\xb8\x96\xe4\xb8", "\xf8\x88\x80\x80\x80",
	} {
		n := 0
		for range s {
			n++
		}
		fmt.Println(hex(s), "|", len(s), n, agree(s), hex(string([]rune(s))))
	}
	fmt.Println(reversed("stra\u00dfe \u4e16 \U0001F600x"), reversed(""), reversed("\xffa"))
	s := "h\u00e9\xfe"
	for i, r := range s {
		fmt.Print(i, ":", r, " ")
	}
	for i := range s {
		fmt.Print(s[i], " ")
	}
	fmt.Println(s[1:3] == "\u00e9", s[1:2] < s[2:3], "z" < "\u00e9", "\u00e9" < "\xfe", s > "h")
	b := []byte(s)
	b[0] = 'H'
	fmt.Println(string(b[:3]), s[:3], string(rune(b[0])), string([]byte{}) == "", len([]byte("\u00e9")), len([]rune("\u00e9")))
	const c = "const \u2713"
	fmt.Println(len(c), c[6], c[len(c)-1], string(c[0])+string('x'+rune(1)))
	ok := true
	for r := rune(0); r <= 0x10ffff; r += 4099 {
		if string(r) != string(encode(r)) || !agree(string(r)+"x") {
			ok = false
		}
	}
	fmt.Println(ok)
}
