package codec

import (
	"errors"
	"strings"
)

var ErrSyntax = errors.New("codec: bad escape")

// Encode makes text free of the bytes in special.
func Encode(s, special string) string {
	var b strings.Builder
	for i := 0; i < len(s); i++ {
		c := s[i]
		if c == '%' || strings.Index(special, s[i:i+1]) >= 0 {
			b.WriteByte('%')
			b.WriteByte(hex(c >> 4))
			b.WriteByte(hex(c & 15))
			continue
		}
		b.WriteByte(c)
	}
	return b.String()
}

func hex(n byte) byte {
	if n < 10 {
		return '0' + n
	}
	return 'a' + n - 10
}

func unhex(c byte) (byte, bool) {
	switch {
	case '0' <= c && c <= '9':
		return c - '0', true
	case 'a' <= c && c <= 'f':
		return c - 'a' + 10, true
	}
	return 0, false
}

func Decode(s string) (string, error) {
	var b strings.Builder
	for i := 0; i < len(s); i++ {
		if s[i] != '%' {
			b.WriteByte(s[i])
			continue
		}
		if i+2 >= len(s) {
			return b.String(), ErrSyntax
		}
		h, ok1 := unhex(s[i+1])
		l, ok2 := unhex(s[i+2])
		if !ok1 || !ok2 {
			return b.String(), ErrSyntax
		}
		b.WriteByte(h<<4 | l)
		i += 2
	}
	return b.String(), nil
}
