package main

import (
	"fmt"
	"strings"
)

type weekday int

const (
	monday weekday = iota
	tuesday
	wednesday
	thursday
	friday
	saturday
	sunday
)

var dayNames = [...]string{monday: "Mon", tuesday: "Tue", wednesday: "Wed", thursday: "Thu", friday: "Fri", saturday: "Sat", sunday: "Sun"}

func (d weekday) String() string { return dayNames[d] }
func (d weekday) weekend() bool  { return d >= saturday }

type month int

const (
	_ month = iota
	jan
	feb
	mar
	dec = 12
)

func leap(y int) bool { return y%4 == 0 && (y%100 != 0 || y%400 == 0) }

func (m month) days(y int) int {
	switch m {
	case feb:
		if leap(y) {
			return 29
		}
		return 28
	case 4, 6, 9, 11:
		return 30
	}
	return 31
}

type date struct {
	year  int
	month month
	day   int
}

func (d date) String() string { return fmt.Sprintf("%04d-%02d-%02d", d.year, int(d.month), d.day) }

// number counts the days since 0000-03-01.
func (d date) number() int {
	y, m := d.year, int(d.month)
	if m < 3 {
		y--
		m += 12
	}
	return 365*y + floor(y, 4) - floor(y, 100) + floor(y, 400) + (153*(m-3)+2)/5 + d.day - 1
}

func floor(a, b int) int {
	q := a / b
	if a%b < 0 {
		q--
	}
	return q
}

func fromNumber(n int) date {
	era := floor(n, 146097)
	doe := n - era*146097
	yoe := (doe - doe/1460 + doe/36524 - doe/146096) / 365
	doy := doe - (365*yoe + yoe/4 - yoe/100)
	mp := (5*doy + 2) / 153
	d := date{yoe + era*400, month(mp + 3), doy - (153*mp+2)/5 + 1}
	if mp >= 10 {
		d.month -= 12
		d.year++
	}
	return d
}

func (d date) weekday() weekday { return weekday(((d.number()+2)%7 + 7) % 7) }

func (d date) add(days int) date { return fromNumber(d.number() + days) }

func (d date) sub(e date) int { return d.number() - e.number() }

func (d date) valid() bool {
	return d.month >= jan && d.month <= dec && d.day >= 1 && d.day <= d.month.days(d.year)
}

func parse(s string) (d date, ok bool) {
	parts := strings.Split(s, "-")
	if len(parts) != 3 {
		return
	}
	var n [3]int
	for i, p := range parts {
		for j := 0; j < len(p); j++ {
			if p[j] < '0' || p[j] > '9' {
				return
			}
			n[i] = n[i]*10 + int(p[j]-'0')
		}
	}
	d = date{n[0], month(n[1]), n[2]}
	return d, d.valid()
}

func easter(y int) date {
	a, b, c := y%19, y/100, y%100
	h := (19*a + b - b/4 - (b-(b+8)/25+1)/3 + 15) % 30
	l := (32 + 2*(b%4) + 2*(c/4) - h - c%4) % 7
	m := (a + 11*h + 22*l) / 451
	k := h + l - 7*m + 114
	return date{y, month(k / 31), k%31 + 1}
}

func page(y int, m month) string {
	var b strings.Builder
	b.WriteString("Mo Tu We Th Fr Sa Su\n")
	first := date{y, m, 1}.weekday()
	b.WriteString(strings.Repeat("   ", int(first)))
	for d := 1; d <= m.days(y); d++ {
		b.WriteString(fmt.Sprintf("%2d", d))
		if w := (date{y, m, d}).weekday(); w == sunday || d == m.days(y) {
			b.WriteByte('\n')
		} else {
			b.WriteByte(' ')
		}
	}
	return b.String()
}

func main() {
	fmt.Print(page(2024, feb), page(2021, mar))
	for _, s := range []string{"2000-01-01", "1970-01-01", "2024-02-29", "2023-02-29", "1900-02-29", "0001-01-01", "2024-13-01", "x", "1-2-", "9999-12-31"} {
		d, ok := parse(s)
		if !ok {
			fmt.Println(s, "is no date")
			continue
		}
		fmt.Println(d, d.weekday(), d.weekday().weekend(), d.add(1), d.add(-1), d.add(1000), d.sub(date{1970, 1, 1}))
	}
	good := true
	d := date{1599, dec, 31}
	for n, end := d.number(), d.number()+146097*2; n < end; n += 977 {
		d = fromNumber(n)
		good = good && d.number() == n && d.valid() && d.add(1).sub(d) == 1
	}
	fmt.Println(good, d)
	for _, y := range []int{1961, 1999, 2008, 2024, 2038} {
		e := easter(y)
		fmt.Print(e, " ", e.weekday(), " ", e.add(49), "; ")
	}
	fmt.Println()
	black := 0
	for y := 1901; y <= 2000; y++ {
		for m := jan; m <= dec; m++ {
			if (date{y, m, 13}).weekday() == friday {
				black++
			}
		}
	}
	fmt.Println(black, len(dayNames), dec, friday, weekday(2))
}
