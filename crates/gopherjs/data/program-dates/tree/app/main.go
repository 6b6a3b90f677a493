package main

import "fmt"

type weekday uint8

const (
	monday weekday = iota
	tuesday
	wednesday
	thursday
	friday
	saturday
	sunday
)

const (
	_  = iota
	kb = 1 << (10 * iota)
	mb
	gb
	big = 1 << 100 >> 98
)

const (
	a, b = iota * 10, iota + 'a'
	c, d
	_, _
	e, f
)

var dayNames = [...]string{monday: "Mo", tuesday: "Tu", friday: "Fr", sunday: "Su", saturday: "Sa", wednesday: "We", thursday: "Th"}

func (w weekday) String() string { return dayNames[w%7] }
func (w weekday) weekend() bool  { return w >= saturday }

type date struct {
	year  int16
	month uint8
	day   uint8
}

func leap(y int16) bool { return y%4 == 0 && (y%100 != 0 || y%400 == 0) }

var lengths = map[bool][12]uint8{
	false: {31, 28, 31, 30, 31, 30, 31, 31, 30, 31, 30, 31},
	true:  {31, 29, 31, 30, 31, 30, 31, 31, 30, 31, 30, 31},
}

func floorDiv(a, b int64) (q, r int64) {
	q, r = a/b, a%b
	if r != 0 && (r < 0) != (b < 0) {
		q--
		r += b
	}
	return
}

func (d date) days() int64 {
	y, m := int64(d.year), int64(d.month)
	if m <= 2 {
		y--
		m += 12
	}
	era, _ := floorDiv(y, 400)
	yoe := y - era*400
	doy := (153*(m-3)+2)/5 + int64(d.day) - 1
	doe := yoe*365 + yoe/4 - yoe/100 + doy
	return era*146097 + doe - 719468
}

func fromDays(n int64) date {
	n += 719468
	era, doe := floorDiv(n, 146097)
	yoe := (doe - doe/1460 + doe/36524 - doe/146096) / 365
	doy := doe - (365*yoe + yoe/4 - yoe/100)
	mp := (5*doy + 2) / 153
	m := mp + 3
	if m > 12 {
		m -= 12
	}
	y := yoe + era*400
	if m <= 2 {
		y++
	}
	return date{int16(y), uint8(m), uint8(doy - (153*mp+2)/5 + 1)}
}

func (d date) weekday() weekday {
	_, r := floorDiv(d.days()+3, 7)
	return weekday(r)
}

func (d date) String() string    { return fmt.Sprintf("%04d-%02d-%02d", d.year, d.month, d.day) }
func (d *date) next()            { *d = fromDays(d.days() + 1) }
func (d date) plus(n int64) date { return fromDays(d.days() + n) }
func (d date) before(o date) bool {
	switch {
	case d.year != o.year:
		return d.year < o.year
	case d.month != o.month:
		return d.month < o.month
	}
	return d.day < o.day
}

func calendar(y int16, m uint8) {
	for w := monday; w <= sunday; w++ {
		fmt.Printf("%3v", w)
	}
	fmt.Println()
	first := date{y, m, 1}
	for i := weekday(0); i < first.weekday(); i++ {
		fmt.Print("   ")
	}
	for d := first; d.month == m; d.next() {
		fmt.Printf("%3d", d.day)
		if d.weekday() == sunday {
			fmt.Println()
		}
	}
	fmt.Println()
}

type duration int64

const (
	second duration = 1
	minute          = 60 * second
	hour            = 60 * minute
)

func (d duration) String() (s string) {
	if d < 0 {
		return "-" + (-d).String()
	}
	for _, u := range []struct {
		d duration
		n string
	}{{hour, "h"}, {minute, "m"}, {second, "s"}} {
		if n := d / u.d; n > 0 || u.d == second && s == "" {
			s += fmt.Sprintf("%d%s", int64(n), u.n)
			d %= u.d
		}
	}
	return
}

func main() {
	calendar(2024, 2)
	for _, d := range []date{{1970, 1, 1}, {2000, 2, 29}, {1900, 3, 1}, {2026, 12, 1}, {1, 1, 1}, {-4, 12, 31}, {9999, 12, 31}} {
		fmt.Println(d, d.weekday(), d.weekday().weekend(), d.days(), fromDays(d.days()) == d, leap(d.year), d.plus(-366), d.plus(1<<16))
	}
	m := map[date]string{{2024, 2, 29}: "leap", {2023, 12, 31}: "eve"}
	d := date{2023, 12, 31}
	for i := 0; i < 61; i++ {
		if s, ok := m[d]; ok {
			fmt.Println(d, s, d.before(date{2024, 1, 1}))
		}
		d.next()
	}
	for y := int16(1900); y <= 2100; y += 100 {
		n := 0
		for _, l := range lengths[leap(y)] {
			n += int(l)
		}
		fmt.Print(y, " ", n, " ")
	}
	fmt.Println(kb, mb, gb, big, a, b, c, d, e, f)
	fmt.Println(2*hour+5*minute+9*second, duration(0), -90*second, duration(1<<40), []int{int(hour), int(minute)})
	fmt.Printf("%v|%6v|%-6v|%d|%x|%s|%c\n", friday, friday, friday, friday, friday, saturday, weekday(65))
	var w weekday
	w--
	fmt.Println(uint8(w), w, w.weekend())
}
