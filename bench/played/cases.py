#!/usr/bin/env python3
"""usage: cases.py PLAYER DATA [GOPHERJS]

Plays each case of DATA (crates/gopherjs/data) that runs a Go program, and prints where what it prints and how it ends are
not what the case says, which runs are too long to be kept, and how many cases are not played, by reason.  With GOPHERJS
it also tells how many ticks the stored scripts take for the units of the played runs: the greatest ratios.
"""

import os
import re
import subprocess
import sys
import tempfile
from collections import Counter

SECONDS = 300
MEMORY = 2 << 20  # KB
NO_MEMORY, STOPPED = 71, 75
MOST = '10000000'
UNUSUAL = {'cuts', 'fails', 'before', 'grow'}


def cases(data):
    """The cases of a folder: names with their files."""
    for name in sorted(os.listdir(data)):
        path = os.path.join(data, name)
        if os.path.isdir(path):
            yield name, folder(path)
        elif name.endswith('.rows'):
            with open(path, 'rb') as f:
                yield from rows(name[:-len('.rows')], f.read())


def folder(top):
    files = {}
    for at, _, names in os.walk(top):
        for name in names:
            path = os.path.join(at, name)
            with open(path, 'rb') as f:
                files[os.path.relpath(path, top)] = f.read()
    return files


def rows(topic, text):
    case, files, path, cut = None, {}, None, False
    for line in text.split(b'\n')[:-1]:
        if line.startswith(b'=== '):
            if case:
                yield f'{topic}/{case}', files
            case, files, path = line[4:].decode(), {}, None
        elif case and line[:4] in (b'--- ', b'--> '):
            path, cut = line[4:].decode(), line.startswith(b'-->')
            files[path] = b''
        elif path:
            files[path] += (b'\n' if cut and files[path] else b'') + line + (b'' if cut else b'\n')
    if case:
        yield f'{topic}/{case}', files


def words_of(files):
    return files.get('args', b'run\napp\n').decode(errors='replace').split('\n')[:-1]


def left_out(files):
    """Why a case is not played, where it isn't."""
    words = words_of(files)
    if words[:1] not in (['run'], ['build']):
        return 'another command'
    if UNUSUAL & set(files):
        return 'files or streams that fail, or that grow'
    if files.get('status', b'0').strip() in (b'1', b'64', b'66', b'74'):
        return 'no program'
    if words[0] == 'build' and 'prints' not in files:
        return 'nothing says what it prints'
    if '--steps' in words:
        return 'so many steps of a script'
    return None


def wanted_of(files):
    """The words of the run, and how it ends, what it prints and what it tells."""
    words = words_of(files)
    if words[0] == 'run':
        return words[1:], (int(files.get('status', b'0')), files.get('stdout', b''), files.get('stderr', b''))
    src = words.index('--src') if '--src' in words else len(words)
    return words[src:src + 2] + [w for w in words if w[:1] != '-'][-1:], (0, files['prints'], b'')


def run(words, where):
    limited = ['sh', '-c', f'ulimit -v {MEMORY}; ulimit -s unlimited; exec "$@"', 'sh'] + words
    try:
        done = subprocess.run(limited, cwd=where, stdout=subprocess.PIPE, stderr=subprocess.PIPE, timeout=SECONDS)
        return done.returncode, done.stdout, done.stderr
    except subprocess.TimeoutExpired:
        return 'time', b'', b''


def stops(program, where, steps):
    return run([program, 'exec', '--steps', str(steps), 'out.js'], where)[0] == STOPPED


def ticks_of(program, words, where):
    """How many steps the stored script takes, within a part in 256."""
    if run([program, 'build'] + words, where)[0] != 0:
        return None
    low, high = 0, 1 << 10
    while stops(program, where, high):
        low, high = high, high * 4
    while high - low > high // 256 + 1:
        middle = (low + high) // 2
        low, high = (middle, high) if stops(program, where, middle) else (low, middle)
    return high


def lay(files, where):
    for path, content in files.items():
        if path.startswith('tree/'):
            to = os.path.join(where, path[len('tree/'):])
            os.makedirs(os.path.dirname(to), exist_ok=True)
            with open(to, 'wb') as f:
                f.write(content)


def shown(wanted, found):
    names = ['status', 'stdout', 'stderr']
    return '; '.join(f'{n}: wanted {w!r:.200}, played {x!r:.200}' for n, w, x in zip(names, wanted, found) if w != x)


def played(player, words, where):
    """How the run ends, what it prints and tells, and the units."""
    code, out, told = run([player, 'run', '--steps', MOST] + words, where)
    found = re.match(rb'(\d+) units\n', told)
    if found:
        told = told[found.end():]
    return (code, out, told), int(found[1]) if found else None


def main():
    player, data = os.path.abspath(sys.argv[1]), sys.argv[2]
    program = os.path.abspath(sys.argv[3]) if len(sys.argv) > 3 else None
    count, differ, ratios, others = 0, 0, [], Counter()
    for name, files in cases(data):
        why = left_out(files)
        if why:
            others[why] += 1
            continue
        count += 1
        words, wanted = wanted_of(files)
        with tempfile.TemporaryDirectory() as where:
            lay(files, where)
            got, units = played(player, words, where)
            if got[0] in ('time', STOPPED, NO_MEMORY):
                others['too long'] += 1
                print(f'{name}: too long: {got[0]}, {got[2][-60:]!r}', flush=True)
            elif wanted != got:
                differ += 1
                print(f'{name}: {shown(wanted, got)}', flush=True)
            elif program and units:
                ticks = ticks_of(program, words, where)
                if ticks:
                    ratios.append((ticks / (units + 1), ticks / (units + 1) ** 2, ticks, units, name))
    print(f'{count - others["too long"]} programs, {differ} differ')
    for why, many in others.items():
        print(f'not played, {why}: {many}')
    for kind, at in [('(u + 1)', 0), ('(u + 1)^2', 1)]:
        for row in sorted(ratios, key=lambda row: -row[at])[:5]:
            print(f'ticks / {kind} = {row[at]:.6f}: {row[2]} ticks, {row[3]} units, {row[4]}')
    sys.exit(1 if differ else 0)


if __name__ == '__main__':
    main()
