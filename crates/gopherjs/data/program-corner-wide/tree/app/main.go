// Values of 64 bits in every kind of place.
package main

import "fmt"

type wide struct {
	n    int64
	u    uint64
	list []int64
	grid [2][2]uint64
}

func (w *wide) bump() int64 { w.n++; return w.n }
func (w wide) sum() (s int64) {
	for _, v := range w.list {
		s += v
	}
	return s + w.n + int64(w.u)
}

type duration int64

func (d duration) String() string { return fmt.Sprintf("%dh%02d", int64(d)/3600, int64(d)/60%60) }

const (
	second duration = 1
	minute          = 60 * second
	hour            = 60 * minute
)

var global uint64 = 1 << 63

func pair(n int64) (int64, uint64) { return -n, uint64(n) << 1 }

func many(ns ...int64) (s int64) {
	for i := range ns {
		ns[i] *= ns[i]
		s ^= ns[i]
	}
	return
}

func main() {
	w := wide{1 << 40, 1<<64 - 1, []int64{-1, 1 << 62}, [2][2]uint64{{1}, {2, 3}}}
	v := w
	p, q := &w.n, &w.grid[1][0]
	*p += 5
	*q <<= 50
	*q |= 1
	w.list[0]--
	w.list[1] /= 3
	w.u++
	fmt.Println(w.n, w.u, w.list[0], w.list[1], v.n, v.u, w.grid[1][0], v.grid[1][0], w.sum(), v.sum())
	w.bump()
	bump := w.bump
	fmt.Println(bump(), *p, v.list[0])

	count := int64(0)
	inc := func(by int64) int64 { count += by; return count }
	inc(1 << 33)
	inc(-1)
	fmt.Println(count, count>>1, count == 1<<33-1, inc(0) != count)
	c := make(chan uint64, 2)
	c <- global
	c <- global >> 3
	global -= <-c
	x, ok := <-c
	fmt.Println(global, x, ok)
	m := map[int64]uint64{}
	for i := int64(-3); i < 3; i++ {
		m[i<<40]++
		m[i<<40] += uint64(i)
	}
	fmt.Println(len(m), m[-1<<40], m[0], m[2<<40], m[1])
	a, b := pair(1 << 50)
	a, b = int64(b), uint64(a)
	fmt.Println(a, b, many(), many(3, 1<<31, -5), many([]int64{1 << 32}...))
	fmt.Println(90*minute, 25*hour+second, hour > minute, duration(30)*minute == 30*minute*1)
	var i interface{} = int64(7)
	_, isInt := i.(int)
	n, is64 := i.(int64)
	fmt.Println(isInt, n, is64, i == int64(7), i == 7, i == interface{}(duration(7)))
	switch d := interface{}(hour).(type) {
	case int64:
		fmt.Println("int64", d)
	case duration:
		fmt.Println("duration", d, d/7, d%7)
	}
	switch k := uint64(1) << uint(n*9); {
	case k > 1<<63-1:
		fmt.Println("huge")
	case k == 1<<63:
		fmt.Println("not here")
	default:
		fmt.Println("small", k)
	}
	arr := [...]uint64{5: 1 << 60, 2: 7}
	brr := arr
	brr[2]--
	fmt.Println(arr == brr, len(arr), arr[5]&^(1<<59), brr[2]^arr[2], arr != [6]uint64{2: 7, 5: 1 << 60})
	ptr := new(uint64)
	pp := &ptr
	**pp = 1<<64 - 2
	*ptr += 3
	fmt.Println(*ptr, **pp == 1)
	for i, j := uint64(1<<64-2), int64(-1<<63); i != 1; i, j = i+1, j-1 {
		fmt.Print(i, " ", j, "; ")
	}
	fmt.Println()
	for i, x := range []int64{1 << 40, -1} {
		defer func(y int64) { fmt.Println("deferred", i, y, x) }(x * 2)
	}
	results := make(chan int64)
	for i := int64(0); i < 3; i++ {
		go func(i int64) { results <- i << (20 * uint(i)) }(i)
	}
	total := int64(0)
	for i := 0; i < 3; i++ {
		select {
		case r := <-results:
			total += r
		}
	}
	fmt.Println(total)
	f := func() (r int64, err error) {
		defer func() {
			if e := recover(); e != nil {
				r, err = r*2, e.(error)
			}
		}()
		r = 1 << 45
		zero := int64(0)
		return r / zero, nil
	}
	fmt.Println(f())
	s := []uint64{9, 8, 7}
	copy(s[1:], s)
	s = append(s, s[0]<<40, uint64(len(s)))
	s[1], s[4] = s[4], s[1]
	fmt.Println(s[0], s[1], s[2], s[3], s[4], int8(s[3]>>40), uint8(s[3]>>36), uint32(s[3]>>9))
	small, odd, bit, rest := int8(-5), uint32(1<<31), int64(1)<<31, uint64(1<<16+5)
	fmt.Println(int64(small), uint64(small), int64(odd), uint64(uint8(small)), int32(bit), uint16(rest), string(rune(bit>>24)), int64(-odd), uint64(-bit))
	var shift uint64 = 65
	fmt.Println(1<<shift == 0, int64(1)<<(shift-2), int32(-8)>>shift, uint8(255)>>(shift-60), uint64(1)<<63>>(shift-2))
}
