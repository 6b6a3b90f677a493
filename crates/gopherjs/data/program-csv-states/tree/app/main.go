package main

import (
	"fmt"
	"strconv"
	"strings"
)

type cell interface{}

type column struct {
	name  string
	width int
	right bool
}

type table struct {
	columns []column
	rows    [][]cell
}

type parseState func(c rune) parseState

func parseCSV(s string) (rows [][]string, err error) {
	var row []string
	var field strings.Builder
	line := 1
	endField := func() {
		row = append(row, field.String())
		field = strings.Builder{}
	}
	endRow := func() {
		endField()
		rows = append(rows, row)
		row = nil
		line++
	}
	var start, plain, quoted, after parseState
	start = func(c rune) parseState {
		if c == '"' {
			return quoted
		}
		return plain(c)
	}
	plain = func(c rune) parseState {
		switch c {
		case ',':
			endField()
			return start
		case '\n':
			endRow()
			return start
		case '"':
			err = fmt.Errorf("line %d: stray quote", line)
			return nil
		}
		field.WriteString(string(c))
		return plain
	}
	quoted = func(c rune) parseState {
		if c == '"' {
			return after
		}
		field.WriteString(string(c))
		return quoted
	}
	after = func(c rune) parseState {
		if c == '"' {
			field.WriteByte('"')
			return quoted
		}
		if c != ',' && c != '\n' {
			err = fmt.Errorf("line %d: %c after quote", line, c)
			return nil
		}
		return plain(c)
	}
	state := start
	for _, c := range s {
		if state = state(c); state == nil {
			return nil, err
		}
	}
	if field.Len() > 0 || row != nil {
		endRow()
	}
	return rows, nil
}

func convert(s string) cell {
	if n, err := strconv.Atoi(s); err == nil {
		return n
	}
	if b, err := strconv.ParseBool(s); err == nil {
		return b
	}
	if strings.HasPrefix(s, "0x") {
		if n, err := strconv.ParseInt(s[2:], 16, 64); err == nil {
			return n
		}
	}
	if s == "" {
		return nil
	}
	return s
}

func build(rows [][]string) (t table) {
	for _, h := range rows[0] {
		t.columns = append(t.columns, column{name: h, width: len([]rune(h)), right: true})
	}
	for _, r := range rows[1:] {
		cells := make([]cell, len(t.columns))
		for i := range cells {
			if i < len(r) {
				cells[i] = convert(r[i])
			}
			c := &t.columns[i]
			if _, text := cells[i].(string); text {
				c.right = false
			}
			if n := len([]rune(fmt.Sprint(cells[i]))); n > c.width {
				c.width = n
			}
		}
		t.rows = append(t.rows, cells)
	}
	return
}

func pad(s string, c column) string {
	fill := strings.Repeat(" ", c.width-len([]rune(s)))
	if c.right {
		return fill + s
	}
	return s + fill
}

func (t *table) print() {
	line := make([]string, len(t.columns))
	for i, c := range t.columns {
		line[i] = pad(c.name, c)
	}
	fmt.Println(strings.Join(line, " | "))
	for i := range line {
		line[i] = strings.Repeat("-", t.columns[i].width)
	}
	fmt.Println(strings.Join(line, "-+-"))
	for _, r := range t.rows {
		for i, c := range r {
			switch v := c.(type) {
			case nil:
				line[i] = pad("", t.columns[i])
			case bool:
				line[i] = pad(map[bool]string{true: "yes", false: "no"}[v], t.columns[i])
			default:
				line[i] = pad(fmt.Sprint(v), t.columns[i])
			}
		}
		fmt.Println(strings.Join(line, " | "))
	}
}

func (t *table) sum(name string) (total int64, ok bool) {
	for i, c := range t.columns {
		if c.name != name {
			continue
		}
		for _, r := range t.rows {
			switch v := r[i].(type) {
			case int:
				total += int64(v)
			case int64:
				total += v
			case bool, nil:
			default:
				return 0, false
			}
		}
		return total, true
	}
	return
}

func groupBy(t table, key func([]cell) cell) map[string][][]cell {
	out := map[string][][]cell{}
	for _, r := range t.rows {
		k := fmt.Sprint(key(r))
		out[k] = append(out[k], r)
	}
	return out
}

func main() {
	rows, err := parseCSV("name,qty,ok,note\nbolt,12,true,\"a, \"\"b\"\"\"\nécrou,-7,f,\nnut,2147483648,T,\"two\nlines\"\nbig,0x7fffffffff,,x,extra\nshort")
	fmt.Println(len(rows), err)
	t := build(rows)
	t.print()
	fmt.Println(t.sum("qty"))
	fmt.Println(t.sum("name"))
	fmt.Println(t.sum("none"))
	g := groupBy(t, func(r []cell) cell { return r[2] })
	for _, k := range []string{"true", "false", "<nil>"} {
		fmt.Printf("%-6s%3d\n", k, len(g[k]))
	}
	for _, bad := range []string{"a\"b", "x,\"y\"z", "\n\n", ""} {
		rows, err := parseCSV(bad)
		fmt.Println(len(rows), err)
	}
}
