package main

import (
	"fmt"
	"strconv"
	"strings"
)

type state int

const (
	start state = iota
	plain
	quoted
	quote
)

type csvError struct {
	line, col int
	msg       string
}

func (e csvError) Error() string { return fmt.Sprintf("%d:%d: %s", e.line, e.col, e.msg) }

type reader struct {
	comma     byte
	line, col int
	rows      [][]string
	row       []string
	field     []byte
}

func (r *reader) endField() {
	r.row = append(r.row, string(r.field))
	r.field = r.field[:0]
}

func (r *reader) endRow() {
	r.endField()
	r.rows = append(r.rows, r.row)
	r.row = nil
}

func (r *reader) read(s string) (rows [][]string, err error) {
	st := start
	r.line, r.col = 1, 0
	for i := 0; i < len(s); i++ {
		c := s[i]
		r.col++
	again:
		switch st {
		case start, plain:
			switch {
			case c == '"' && st == start:
				st = quoted
			case c == '"':
				return r.rows, csvError{r.line, r.col, "bare quote"}
			case c == r.comma:
				r.endField()
				st = start
			case c == '\n':
				r.endRow()
				st = start
			case c == '\r' && i+1 < len(s) && s[i+1] == '\n':
				continue
			default:
				r.field = append(r.field, c)
				st = plain
			}
		case quoted:
			if c == '"' {
				st = quote
				break
			}
			r.field = append(r.field, c)
		case quote:
			switch c {
			case '"':
				r.field = append(r.field, c)
				st = quoted
				break again
			case r.comma, '\n', '\r':
				st = plain
				i--
				r.col--
				continue
			}
			return r.rows, csvError{r.line, r.col, "text after a quote"}
		}
		if c == '\n' {
			r.line++
			r.col = 0
		}
	}
	if st == quoted {
		return r.rows, csvError{r.line, r.col, "open quote"}
	}
	if st != start || len(r.row) > 0 {
		r.endRow()
	}
	return r.rows, nil
}

func write(rows [][]string, comma string) string {
	var b strings.Builder
	for _, row := range rows {
		for i, f := range row {
			if i > 0 {
				b.WriteString(comma)
			}
			if strings.Contains(f, comma) || strings.Contains(f, `"`) || strings.Contains(f, "\n") {
				f = `"` + strings.Join(strings.Split(f, `"`), `""`) + `"`
			}
			b.WriteString(f)
		}
		b.WriteByte('\n')
	}
	return b.String()
}

func sums(rows [][]string) (names []string, totals []int64, bad int) {
	names = rows[0]
	totals = make([]int64, len(names))
	for _, row := range rows[1:] {
		for i, f := range row {
			n, err := strconv.ParseInt(strings.TrimSpace(f), 10, 64)
			if err != nil {
				bad++
				continue
			}
			totals[i] += n
		}
	}
	return
}

func main() {
	for _, s := range []string{
		"a,b,c\n1,2,3\n", "x,\"y,z\",\"say \"\"hi\"\"\"\r\n,,\r\n", "\"two\nlines\",end", "", "\n", "a,b\"c\n", "\"open\n,", "ok\n\"a\"b,c\n", ",",
	} {
		r := &reader{comma: ','}
		rows, err := r.read(s)
		fmt.Println(len(rows), err)
		for _, row := range rows {
			fmt.Println("  ", len(row), strings.Join(row, "|"))
		}
		if err == nil {
			again, err := (&reader{comma: ';'}).read(write(rows, ";"))
			fmt.Println("  ", err == nil && write(again, ",") == write(rows, ","))
		}
	}
	rows, _ := (&reader{comma: ','}).read("n,sq,cube\n1,1,1\n2,4,8\n30, 900 ,27000\nx,,5000000000\n")
	names, totals, bad := sums(rows)
	for i, n := range names {
		fmt.Print(n, "=", totals[i], " ")
	}
	fmt.Println("bad", bad)
}
