package main

import "fmt"

type matrix [][]int64

func zero(r, c int) matrix {
	m := make(matrix, r)
	back := make([]int64, r*c)
	for i := range m {
		m[i], back = back[:c:c], back[c:]
	}
	return m
}

func unit(n int) matrix {
	m := zero(n, n)
	for i := range m {
		m[i][i] = 1
	}
	return m
}

func (a matrix) mul(b matrix) matrix {
	m := zero(len(a), len(b[0]))
	for i, row := range a {
		for k, x := range row {
			if x == 0 {
				continue
			}
			for j, y := range b[k] {
				m[i][j] += x * y
			}
		}
	}
	return m
}

func (a matrix) pow(n uint) matrix {
	r := unit(len(a))
	for ; n > 0; n >>= 1 {
		if n&1 == 1 {
			r = r.mul(a)
		}
		a = a.mul(a)
	}
	return r
}

func (a matrix) transpose() matrix {
	m := zero(len(a[0]), len(a))
	for i := range a {
		for j := range a[i] {
			m[j][i] = a[i][j]
		}
	}
	return m
}

// det is the determinant by elimination without fractions.
func (a matrix) det() int64 {
	n := len(a)
	m := zero(n, n)
	for i := range a {
		copy(m[i], a[i])
	}
	sign, prev := int64(1), int64(1)
	for k := 0; k < n-1; k++ {
		if m[k][k] == 0 {
			swap := -1
			for i := k + 1; i < n; i++ {
				if m[i][k] != 0 {
					swap = i
					break
				}
			}
			if swap < 0 {
				return 0
			}
			m[k], m[swap] = m[swap], m[k]
			sign = -sign
		}
		for i := k + 1; i < n; i++ {
			for j := k + 1; j < n; j++ {
				m[i][j] = (m[i][j]*m[k][k] - m[i][k]*m[k][j]) / prev
			}
		}
		prev = m[k][k]
	}
	return sign * m[n-1][n-1]
}

func (a matrix) print(name string) {
	fmt.Println(name)
	for _, row := range a {
		for _, x := range row {
			fmt.Printf("%8d", x)
		}
		fmt.Println()
	}
}

type grid [3][3]int

func (g grid) turned() grid {
	var r grid
	for i, row := range g {
		for j, x := range row {
			r[j][2-i] = x
		}
	}
	return r
}

func main() {
	a := matrix{{1, 2, 3}, {4, 5, 6}}
	a.mul(a.transpose()).print("a*at")
	a.transpose().mul(a).print("at*a")
	fib := matrix{{1, 1}, {1, 0}}.pow(90)
	fmt.Println("fib", fib[0][1], fib[1][1])
	w := matrix{{1, 1}, {1, 0}}.pow(100)
	fmt.Println("wrapped", w[0][1], w[0][0])
	for n := 1; n <= 6; n++ {
		m := zero(n, n)
		for i := range m {
			for j := range m[i] {
				m[i][j] = int64((i*i+3*j+i*j*5)%11 - 4)
			}
		}
		fmt.Println("det", n, m.det())
	}
	fmt.Println(matrix{{0, 2}, {3, 0}}.det(), matrix{{0, 0}, {3, 1}}.det())

	g := grid{{1, 2, 3}, {4, 5, 6}, {7, 8, 9}}
	h := g.turned()
	k := h.turned().turned().turned()
	fmt.Println(g == k, g == h, h[0][0], h[0][2], g[0][0])
	row := a[0]
	row = append(row, 100)
	z := zero(2, 2)
	y := append(z[0], 7)
	fmt.Println(len(row), len(a[0]), len(y), z[1][0])
}
