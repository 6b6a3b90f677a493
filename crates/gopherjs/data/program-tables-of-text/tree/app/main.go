// Texts: wrapping, tables, ciphers, Roman numbers, runs and a small template.
package main

import (
	"fmt"
	"strings"
)

func wrap(text string, width int) (lines []string) {
	line := ""
	for _, word := range strings.Fields(text) {
		switch {
		case line == "":
			line = word
		case len(line)+1+len(word) <= width:
			line += " " + word
		default:
			lines = append(lines, line)
			line = word
		}
	}
	if line != "" {
		lines = append(lines, line)
	}
	return
}

// justify spreads the words of a line over the width.
func justify(line string, width int) string {
	words := strings.Split(line, " ")
	gaps := len(words) - 1
	if gaps == 0 {
		return line
	}
	free := width - len(line)
	out := words[0]
	for i, word := range words[1:] {
		n := 1 + free/gaps
		if i < free%gaps {
			n++
		}
		out += strings.Repeat(" ", n) + word
	}
	return out
}

func roman(n int) string {
	values := [...]int{1000, 900, 500, 400, 100, 90, 50, 40, 10, 9, 5, 4, 1}
	names := [...]string{"M", "CM", "D", "CD", "C", "XC", "L", "XL", "X", "IX", "V", "IV", "I"}
	var b strings.Builder
	for i, v := range values {
		for ; n >= v; n -= v {
			b.WriteString(names[i])
		}
	}
	return b.String()
}

func fromRoman(s string) (n int) {
	value := map[byte]int{'I': 1, 'V': 5, 'X': 10, 'L': 50, 'C': 100, 'D': 500, 'M': 1000}
	for i := 0; i < len(s); i++ {
		v := value[s[i]]
		if i+1 < len(s) && value[s[i+1]] > v {
			n -= v
		} else {
			n += v
		}
	}
	return
}

func shift(s string, by int) string {
	out := []byte(s)
	for i, c := range out {
		switch {
		case 'a' <= c && c <= 'z':
			out[i] = 'a' + byte((int(c-'a')+by+26)%26)
		case 'A' <= c && c <= 'Z':
			out[i] = 'A' + byte((int(c-'A')+by+26)%26)
		}
	}
	return string(out)
}

func vigenere(s, key string, sign int) string {
	out, k := "", 0
	for i := range s {
		part := s[i : i+1]
		if moved := shift(part, sign*int(key[k%len(key)]-'a')); moved != part || part >= "A" {
			part = moved
			k++
		}
		out += part
	}
	return out
}

type vars map[string]string

// fill replaces names in braces.
func (v vars) fill(text string) (out string, missing []string) {
	for {
		from := strings.Index(text, "{")
		if from < 0 {
			return out + text, missing
		}
		to := strings.Index(text[from:], "}")
		if to < 0 {
			return out + text, append(missing, "unclosed")
		}
		name := strings.TrimSpace(text[from+1 : from+to])
		value, ok := v[name]
		if !ok {
			missing = append(missing, name)
			value = "?"
		}
		out += text[:from] + value
		text = text[from+to+1:]
	}
}

func longest(a, b string) string {
	best := ""
	for i := range a {
		for j := len(a); j-i > len(best); j-- {
			if strings.Contains(b, a[i:j]) {
				best = a[i:j]
			}
		}
	}
	return best
}

func count(s string) (letters, digits, spaces, others int) {
	for _, r := range s {
		switch {
		case r >= 'a' && r <= 'z', r >= 'A' && r <= 'Z', r > 127:
			letters++
		case r >= '0' && r <= '9':
			digits++
		case strings.TrimSpace(string(r)) == "":
			spaces++
		default:
			others++
		}
	}
	return
}

func main() {
	text := "The old boat lay on the sand, and nobody knew whose it was or how long it had lain there, so the children made it theirs."
	lines := wrap(text, 28)
	for i, line := range lines {
		if i < len(lines)-1 {
			line = justify(line, 28)
		}
		fmt.Printf("|%-28s|\n", line)
	}
	fmt.Println(len(wrap("", 5)), wrap("abcdefgh ij", 3), justify("one", 9))
	for _, n := range []int{1, 4, 9, 14, 40, 90, 400, 1987, 2022, 3999} {
		r := roman(n)
		fmt.Print(r, " ", fromRoman(r) == n, "; ")
	}
	fmt.Println()
	secret := shift(text, 7)
	fmt.Println(secret[:24], shift(secret, -7) == text)
	v := vigenere("Attack at dawn!", "lemon", 1)
	fmt.Println(v, vigenere(v, "lemon", -1))
	fmt.Println(vars{"name": "Ada", "n": "3"}.fill("Dear {name}, you have { n } {thing} and {{n}."))
	fmt.Println(vars(nil).fill("open {x"))
	fmt.Println(longest("the sand bank", "a bandbank"), longest("abc", "xyz") == "", longest("日本語", "本語日"))
	fmt.Println(count("Ab1 é2\t-!\n"))
	rows := [][]string{{"name", "count"}, {"boat", "3"}, {"children", "12"}}
	var widths [2]int
	for _, row := range rows {
		for i, cell := range row {
			if len(cell) > widths[i] {
				widths[i] = len(cell)
			}
		}
	}
	for _, row := range rows {
		for i, cell := range row {
			fmt.Print("| ", cell, strings.Repeat(" ", widths[i]-len(cell)), " ")
		}
		fmt.Println("|")
	}
	fmt.Print("[", pad("mid", 9), "] [", pad("toolong", 4), "]\n")
}

func pad(s string, width int) string {
	if len(s) >= width {
		return s[:width]
	}
	left := (width - len(s)) / 2
	return strings.Repeat("-", left) + s + strings.Repeat("-", width-len(s)-left)
}
