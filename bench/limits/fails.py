"""fails.py PROGRAM [MOST]: builds and runs three programs once for each of their allocations, in which that one fails,
and once more where all after it fail too: at most MOST (1000) each, spread over all. A call that doesn't end as it
should has to end with 71 and its line, without it where the words aren't read yet, or with 66 or 74 where the C library
wants the memory; nothing may be stored, and what was printed must be a beginning of what the program prints."""
import os
import shutil
import subprocess
import sys
import tempfile

HERE = os.path.dirname(os.path.abspath(__file__))
SCALARS = '''package main

func gcd(a, b int64) int64 {
	for b != 0 {
		a, b = b, a%b
	}
	return a
}

func main() {
	for i := int64(1); i < 20; i++ {
		println(i, gcd(i*12, 90), i<<40>>3)
	}
}
'''
WHOLE = '''package main

import "fmt"

type shape interface{ area() int }

type square struct{ side int }

func (s square) area() int { return s.side * s.side }

func main() {
	lines := make(chan string)
	go func() {
		defer close(lines)
		for _, s := range []shape{square{2}, square{3}} {
			lines <- fmt.Sprintf("%05d", s.area())
		}
	}()
	count := map[string][]int{}
	for line := range lines {
		count[line] = append(count[line], len(line))
		fmt.Println(line, count[line])
	}
	defer func() { fmt.Println(recover()) }()
	var none []int
	println(none[len(lines)])
}
'''
HELLO = 'package main\n\nfunc main() {\n\tprintln("hello")\n}\n'
TOLD = {71: b'gopherjs: out of memory\n', 66: b'gopherjs: read failed\n', 74: b'gopherjs: write failed\n'}


def call(program, words, where, **env):
    done = subprocess.run([program] + words, cwd=where, stdout=subprocess.PIPE, stderr=subprocess.PIPE, env=dict(os.environ, **env), timeout=120)
    return done.returncode, done.stdout, done.stderr


def fault(got, right, where):
    code, out, told = got
    if got == right:
        return None
    if TOLD.get(code) != told and (code, told) != (71, b''):
        return f'ends with {code} {told[:80]!r}'
    if not right[1].startswith(out):
        return f'prints {out[:80]!r}'
    return f'stored {os.listdir(where)}' if sorted(os.listdir(where)) != ['app'] else None


def main():
    program, most = os.path.abspath(sys.argv[1]), int(sys.argv[2]) if sys.argv[2:] else 1000
    bad = 0
    with tempfile.TemporaryDirectory() as held:
        library, where, count = f'{held}/fails.so', f'{held}/here', f'{held}/count'
        subprocess.run(['gcc', '-O1', '-shared', '-fPIC', '-o', library, f'{HERE}/fails.c'], check=True)
        for name, text in (('hello', HELLO), ('scalars', SCALARS), ('whole', WHOLE)):
            for word in ('build', 'run'):
                def fresh():
                    shutil.rmtree(where, ignore_errors=True)
                    os.makedirs(f'{where}/app')
                    with open(f'{where}/app/main.go', 'w') as f:
                        f.write(text)
                fresh()
                right = call(program, [word, 'app'], where, LD_PRELOAD=library, COUNT_TO=count)
                all_of = int(open(count).read())
                step = max(1, all_of // most)
                ends = {}
                for more in ({}, {'FAIL_FROM': '1'}):
                    for n in range(1, all_of + 1, step):
                        fresh()
                        got = call(program, [word, 'app'], where, LD_PRELOAD=library, FAIL_ALLOC=str(n), **more)
                        ends[got[0]] = ends.get(got[0], 0) + 1
                        what = fault(got, right, where)
                        if what:
                            bad += 1
                            print(f'{name}: {word}: allocation {n}{" and all after" if more else ""}: {what}', flush=True)
                print(f'{name}: {word}: ends with {right[0]}, {all_of} allocations, one of {step} tried; ends {sorted(ends.items())}', flush=True)
    print(f'{bad} wrong')
    sys.exit(1 if bad else 0)


main()
