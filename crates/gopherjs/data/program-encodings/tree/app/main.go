package main

import (
	"errors"
	"fmt"
	"strconv"
	"strings"
)

const alphabet = "ABCDEFGHIJKLMNOPQRSTUVWXYZabcdefghijklmnopqrstuvwxyz0123456789+/"

var (
	reverse  [256]int8
	errInput = errors.New("corrupt input")
)

func init() {
	for i := range reverse {
		reverse[i] = -1
	}
	for i := 0; i < len(alphabet); i++ {
		reverse[alphabet[i]] = int8(i)
	}
}

type codec interface {
	encode([]byte) string
	decode(string) ([]byte, error)
}

type base64 struct{ pad bool }

func (c base64) encode(b []byte) string {
	var out strings.Builder
	for len(b) > 0 {
		var v uint32
		n := copyTo(&v, b)
		b = b[n:]
		for i := 0; i <= n; i++ {
			out.WriteByte(alphabet[v>>uint(18-6*i)&63])
		}
		if c.pad {
			out.WriteString(strings.Repeat("=", 3-n))
		}
	}
	return out.String()
}

func copyTo(v *uint32, b []byte) (n int) {
	for n = 0; n < 3 && n < len(b); n++ {
		*v |= uint32(b[n]) << uint(16-8*n)
	}
	return
}

func (c base64) decode(s string) (out []byte, err error) {
	if c.pad {
		if len(s)%4 != 0 {
			return nil, errInput
		}
		for i := 0; i < 2 && strings.HasSuffix(s, "="); i++ {
			s = s[:len(s)-1]
		}
	}
	var v uint32
	bits := uint(0)
	for i := 0; i < len(s); i++ {
		d := reverse[s[i]]
		if d < 0 {
			return out, errInput
		}
		v = v<<6 | uint32(d)
		if bits += 6; bits >= 8 {
			bits -= 8
			out = append(out, byte(v>>bits))
		}
	}
	return
}

type hexadecimal struct{}

func (hexadecimal) encode(b []byte) string { return fmt.Sprintf("%x", string(b)) }

func (hexadecimal) decode(s string) ([]byte, error) {
	if len(s)%2 != 0 {
		return nil, errInput
	}
	out := make([]byte, 0, len(s)/2)
	for ; s != ""; s = s[2:] {
		n, err := strconv.ParseInt(s[:2], 16, 16)
		if err != nil {
			return out, errInput
		}
		out = append(out, byte(n))
	}
	return out, nil
}

type runs struct{}

func (runs) encode(b []byte) string {
	var out []string
	for i := 0; i < len(b); {
		j := i
		for j < len(b) && b[j] == b[i] {
			j++
		}
		out = append(out, strconv.Itoa(j-i)+"x"+strconv.Itoa(int(b[i])))
		i = j
	}
	return strings.Join(out, " ")
}

func (runs) decode(s string) (out []byte, err error) {
	for _, w := range strings.Fields(s) {
		x := strings.Index(w, "x")
		if x < 0 {
			return out, errInput
		}
		n, err1 := strconv.Atoi(w[:x])
		c, err2 := strconv.Atoi(w[x+1:])
		if err1 != nil || err2 != nil || c != c&255 {
			return out, errInput
		}
		for ; n > 0; n-- {
			out = append(out, byte(c))
		}
	}
	return
}

type shift int

func (k shift) turn(b []byte, by int) []byte {
	out := make([]byte, len(b))
	for i, c := range b {
		switch {
		case 'a' <= c && c <= 'z':
			c = 'a' + byte((int(c-'a')+by+26)%26)
		case 'A' <= c && c <= 'Z':
			c = 'A' + byte((int(c-'A')+by+26)%26)
		}
		out[i] = c
	}
	return out
}

func (k shift) encode(b []byte) string          { return string(k.turn(b, int(k))) }
func (k shift) decode(s string) ([]byte, error) { return k.turn([]byte(s), -int(k)), nil }
func same(a, b []byte) bool                     { return string(a) == string(b) }
func named(c codec, s string) (e string, d []byte, err error) {
	e = c.encode([]byte(s))
	d, err = c.decode(e)
	return
}

func main() {
	codecs := []struct {
		name string
		c    codec
	}{{"base64", base64{true}}, {"raw64", base64{}}, {"hex", hexadecimal{}}, {"runs", runs{}}, {"rot13", shift(13)}, {"rot-3", shift(-3)}}
	for _, x := range codecs {
		for _, s := range []string{"", "f", "fo", "foo", "foobar", "Hello, World!", "aaab\x00\x00\xff", "\u00e9\u4e16"} {
			e, d, err := named(x.c, s)
			if !same(d, []byte(s)) || err != nil {
				fmt.Println("wrong", x.name, s, err)
			}
			if x.name == "rot13" || x.name == "rot-3" {
				e = strings.Join(strings.Fields(fmt.Sprintf("%x", e)), "")
			}
			fmt.Println(x.name, len(s), e)
		}
	}
	for i, s := range []string{"Zg=", "Z!==", "0g", "abc", "3y4", "2x999", "3x7 x"} {
		c := codecs[[]int{0, 0, 2, 2, 3, 3, 3}[i]].c
		d, err := c.decode(s)
		fmt.Println(s, err, len(d), err == errInput)
	}
	text := "Why did the chicken cross the road?"
	e := shift(13).encode([]byte(text))
	fmt.Println(e, shift(13).encode([]byte(e)) == text)
}
