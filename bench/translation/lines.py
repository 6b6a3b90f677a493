"""lines.py FILE LINES: a program of about so many lines of scalar functions."""
import sys

BODY = '''func f{n}(a, b int, s string) int {{
	x := a*{k} + b
	for i := 0; i < {m}; i++ {{
		if x%3 == 0 {{
			x += i
		}} else {{
			x = x*2 - b
		}}
	}}
	if s == "{n}" || x < 0 {{
		return -x
	}}
	return x + {call}
}}

'''


def main():
    path, lines = sys.argv[1], int(sys.argv[2])
    many = lines // 15
    with open(path, 'w') as f:
        f.write('package main\n\n')
        for n in range(many):
            call = f'f{n - 1}(a-1, b, s)' if n % 7 else '0'
            f.write(BODY.format(n=n, k=n % 100 + 1, m=n % 5 + 1, call=call))
        calls = '\n'.join(f'\tx += f{n}(x, {n}, "a")' for n in range(0, many, 7))
        f.write('func main() {\n\tx := 1\n' + calls + '\n\tprintln(x)\n}\n')


main()
