"""measure.py GOPHERJS: what scripts cost, in one run. Times are in seconds, the least of three runs each; a ratio is
to a script that a person would write for the same."""
import os
import re
import subprocess
import sys
import tempfile
import time

HERE = os.path.dirname(os.path.abspath(__file__))
PROGRAM = os.path.abspath(sys.argv[1])


def timed(words, times=3):
    best = None
    for _ in range(times):
        begun = time.perf_counter()
        done = subprocess.run(words, stdout=subprocess.PIPE, stderr=subprocess.PIPE)
        spent = time.perf_counter() - begun
        if done.returncode != 0:
            return None, done.stdout + done.stderr
        best = spent if best is None else min(best, spent)
    return best, done.stdout


def built(folder, work):
    out = f'{work}/{os.path.basename(folder)}.js'
    done = subprocess.run([PROGRAM, 'build', '-o', out, folder], stderr=subprocess.PIPE)
    if done.returncode != 0:
        return None
    return out


def ratio(name, most, work):
    script = built(f'{HERE}/{name}', work)
    if not script:
        return print(f'{name}: not built')
    ours, told = timed(['node', script])
    hand, right = timed(['node', f'{HERE}/{name}/hand.js'])
    if ours is None or told != right:
        return print(f'{name}: {told[:200]!r} where {right[:200]!r} is right')
    print(f'{name}: {ours:.2f} against {hand:.2f} by hand, {ours / hand:.2f} times (wanted: {most})')


def size(name, most, work):
    script = built(f'{HERE}/{name}', work)
    if not script:
        return print(f'{name}: not built')
    print(f'{name}: {os.path.getsize(script)} bytes stored (wanted: under {most})')


def sends(work):
    script = built(f'{HERE}/sends', work)
    if not script:
        return print('sends: not built')
    spent, told = timed(['node', script])
    if spent is None:
        return print(f'sends: {told[:200]!r}')
    print(f'sends: 1000000 in {spent:.2f} (wanted: under 2)')


# The growth of node's greatest memory over a script that does nothing.
def alive(work):
    script = built(f'{HERE}/alive', work)
    if not script:
        return print('alive: not built')
    idle = f'{work}/idle.js'
    with open(idle, 'w') as f:
        f.write('')
    used = []
    for it in (script, idle):
        done = subprocess.run(['node', '--expose-gc', '-r', f'{HERE}/memory.js', it], stdout=subprocess.PIPE, stderr=subprocess.PIPE)
        told = re.search(rb'used (\d+)', done.stderr)
        if not told:
            return print(f'alive: {done.stderr[:200]!r}')
        used.append(int(told.group(1)))
    print(f'alive: {(used[0] - used[1]) / 100000:.0f} bytes a goroutine (wanted: under 500)')


def translation(work):
    folder = f'{work}/lines'
    os.makedirs(folder)
    subprocess.run([sys.executable, f'{HERE}/lines.py', f'{folder}/main.go', '100000'], check=True)
    check, _ = timed([PROGRAM, 'blocking', folder], 1)
    build, told = timed([PROGRAM, 'build', '-o', f'{work}/lines.js', folder], 1)
    if check is None or build is None:
        return print(f'lines: {told[:200]!r}')
    print(f'lines: 100000 checked and marked in {check:.2f}, built in {build:.2f}, {build / check:.2f} times (wanted: under 2)')


def main():
    with tempfile.TemporaryDirectory() as work:
        ratio('loop', 1.5, work)
        ratio('fib', 1.5, work)
        ratio('slice', 1.5, work)
        ratio('keys', 3, work)
        sends(work)
        alive(work)
        size('small', 2000, work)
        size('hundred', 15000, work)
        translation(work)


main()
