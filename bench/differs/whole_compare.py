"""whole_compare.py GOPHERJS FOLDER [PLAYER]: runs each program of FOLDER, as whole.py wrote it, by the Go toolchain, the
script that `gopherjs build` stores by node, and one of four by `gopherjs run` too, and prints where they differ. With
PLAYER, a built go_player (bench/played), each is played by Go's meaning as well. What the toolchain makes of them is kept in the
folder; the word `go` in place of the program asks for no more than that."""
import os
import pickle
import re
import shutil
import subprocess
import sys

SECONDS = 900
MEMORY = 2 << 20  # KB
STEPS = '10000000'
NO_MEMORY, STOPPED = 71, 75


def run(words, **more):
    try:
        done = subprocess.run(words, stdout=subprocess.PIPE, stderr=subprocess.PIPE, timeout=SECONDS, **more)
        return done.returncode, done.stdout, done.stderr
    except subprocess.TimeoutExpired:
        return 'time', b'', b''


# How a program of Go ended: what it prints before a panic counts, and that it panics; the text is our own.
def ended(code, told):
    at = re.search(rb'^(panic|fatal error): ', told, re.M)
    return code, told[:at.start()] if at else told, at.group(1) if at else b''


def ours(code, out, told):
    at = re.search(rb'^(panic|fatal error): ', told, re.M)
    return code, out, at.group(1) if at else told


class Toolchain:
    """One program of the Go toolchain for all. Each package tells when its initialisation begins and when it is over,
    so that what is printed meanwhile is known for each. A program that panics there ends all of them: its end is kept,
    and the rest is built again without it."""

    def __init__(self, folder, names):
        self.folder, self.binary = folder + '/go', os.path.abspath(folder + '/go.bin')
        self.known, self.begun, names = {}, {}, list(names)
        while True:
            names = self.build(names)
            code, _, told = run([self.binary, ''])
            self.begun, open_one = beginnings(told)
            if not open_one:
                break
            self.known[open_one] = ended(code, self.begun.pop(open_one))
            self.drop(open_one)
            names.remove(open_one)

    # Builds what the toolchain takes, and answers its names. A small program is a file among others of one package.
    def build(self, names):
        env = dict(os.environ, GOARCH='386', GOFLAGS='-mod=mod', GO111MODULE='on')
        while True:
            place = {x: (x, 'Main') if os.path.isdir(f'{self.folder}/{x}') else (f'b{int(x[1:]) // 50}', 'Main' + x[1:]) for x in names}
            with open(f'{self.folder}/main.go', 'w') as f:
                f.write('package main\n\nimport (\n\t"os"\n' + ''.join(f'\t"whole/{x}"\n' for x in sorted({x for x, _ in place.values()})) + ')\n\nfunc main() {\n\tprintln("==")\n\tswitch os.Args[1] {\n')
                f.write(''.join(f'\tcase "{x}":\n\t\t{place[x][0]}.{place[x][1]}()\n' for x in names) + '\t}\n}\n')
            done = subprocess.run(['go', 'build', '-p', '1', '-gcflags=-N -e', '-o', self.binary, '.'], cwd=self.folder, env=env, stderr=subprocess.PIPE)
            if done.returncode == 0:
                return names
            told = done.stderr.decode()
            wrong = set(re.findall(r'^(?:# whole/|b\d+/)(p\d+)\b', told, re.M)) & set(names)
            print(f'go refuses {" ".join(sorted(wrong))}: {told[:1000]}', flush=True)
            if not wrong:
                sys.exit(2)
            for x in wrong:
                self.drop(x)
            names = [x for x in names if x not in wrong]

    def drop(self, name):
        self.known.setdefault(name, ('time', b'', b''))
        alone = f'{self.folder}/b{int(name[1:]) // 50}/{name}.go'
        if os.path.exists(alone):
            os.remove(alone)

    def end(self, name):
        if name not in self.known:
            code, _, told = run([self.binary, name])
            at = told.find(b'==\n')
            self.known[name] = ended(code, self.begun.get(name, b'') + told[at + 3:])
        return self.known[name]


# A played run: what it prints and how it ends, without its units. It keeps each step, so it may not be long.
def played(words):
    code, out, told = run(['sh', '-c', f'ulimit -v {MEMORY}; ulimit -s unlimited; exec "$@"', 'sh'] + words)
    return ours('time' if code in (STOPPED, NO_MEMORY) else code, out, re.sub(rb'^\d+ units\n', b'', told))


# What each program printed while its packages were initialised, and the one that didn't come to its end.
def beginnings(told):
    begun, now = {}, None
    for line in told.split(b'==\n')[0].splitlines(keepends=True):
        mark = re.fullmatch(rb'(>>|<<)(\d+)\n', line)
        if mark and mark.group(1) == b'>>':
            now = 'p' + mark.group(2).decode()
            begun.setdefault(now, b'')
        elif mark:
            now = None
        elif now:
            begun[now] += line
    return begun, now


class Ours:
    """What we make of the programs: small ones that come to their end by fifties, all others alone."""

    def __init__(self, program, folder, player):
        self.program, self.folder, self.player, self.wrong, self.built, self.long = program, folder, player, 0, 0, 0

    def told(self, text):
        self.wrong += 1
        print(text, flush=True)

    # The runner takes ten times the time of node, so it runs one program of four.
    def ends(self, where, more=[]):
        code, _, told = run([self.program, 'build', '-o', f'{where}/out.js'] + more + [where])
        if code != 0:
            return [('build', (code, b'', told))]
        self.built += 1
        ends = [('node', ours(*run(['node', f'{where}/out.js'])))]
        if self.built % 4 == 1:
            ends.append(('run', ours(*run([self.program, 'run'] + more + [where]))))
        return ends + self.played(where, more)

    # By the meaning, but for a run that is too long to be kept.
    def played(self, where, more):
        if not self.player:
            return []
        end = played([self.player, 'run', '--steps', STEPS] + more + [where])
        self.long += end[0] == 'time'
        return [] if end[0] == 'time' else [('played', end)]

    def alone(self, name, right):
        where = f'{self.folder}/{name}'
        for kind, got in self.ends(where, ['--src', f'{where}/src'] if os.path.isdir(f'{where}/src') else []):
            if got != right:
                self.told(f'{name}: {kind}: {difference(right, got)}')

    # Many in one program: what each printed stands between its marks. Where one is wrong, it is tried alone.
    def together(self, rights):
        names = list(rights)
        where = f'{self.folder}/many_{names[0]}'
        os.makedirs(where, exist_ok=True)
        for x in names:
            shutil.copy(f'{self.folder}/all/{x}.go', where)
        with open(f'{where}/main.go', 'w') as f:
            f.write('package main\n\nfunc main() {\n' + ''.join(f'\tprintln("=={x[1:]}")\n\tMain{x[1:]}()\n' for x in names) + '}\n')
        bad = set()
        for kind, (code, out, _) in self.ends(where):
            parts = {}
            for line in out.splitlines(keepends=True):
                mark = re.fullmatch(rb'(>>|<<|==)(\d+)\n', line)
                if mark:
                    now = 'p' + mark.group(2).decode()
                else:
                    parts[now] = parts.get(now, b'') + line
            bad |= {x for x in names if parts.get(x, b'') != rights[x][1]}
            if code != 0 and not bad:
                self.told(f'{where}: {kind} ends with {code}')
        for x in sorted(bad)[:8]:
            self.alone(x, rights[x])
        if bad:
            print(f'{where}: tried alone: {" ".join(sorted(bad))}', flush=True)


# What the Go toolchain makes of each program that it takes; a file keeps it.
def known(folder, names):
    path = f'{folder}/rights'
    if not os.path.exists(path):
        go = Toolchain(folder, names)
        rights = {x: go.end(x) for x in names}
        with open(path, 'wb') as f:
            pickle.dump({x: right for x, right in rights.items() if right[0] != 'time'}, f)
    with open(path, 'rb') as f:
        return pickle.load(f)


def main():
    program, folder = os.path.abspath(sys.argv[1]), sys.argv[2]
    names = sorted((d for d in os.listdir(folder) if re.fullmatch(r'p\d+', d)), key=lambda d: int(d[1:]))
    rights = known(folder, names)
    if sys.argv[1] == 'go':
        return
    we = Ours(program, folder, os.path.abspath(sys.argv[3]) if len(sys.argv) > 3 else None)
    many = [x for x, right in rights.items() if right[0] == 0 and os.path.exists(f'{folder}/all/{x}.go')]
    for i in range(0, len(many), 50):
        we.together({x: rights[x] for x in many[i:i + 50]})
    for x in set(rights) - set(many):
        we.alone(x, rights[x])
    print(f'{len(rights)} programs, {we.wrong} differences, {len(names) - len(rights)} left out; {we.long} times a played run is too long')
    sys.exit(1 if we.wrong else 0)


def difference(right, got):
    a, b = right[1].split(b'\n'), got[1].split(b'\n')
    for i in range(max(len(a), len(b))):
        x, y = a[i] if i < len(a) else None, b[i] if i < len(b) else None
        if x != y:
            return f'line {i + 1}: Go {x!r}, ours {y!r}; Go ends {right[0]} {right[2]!r}, ours {got[0]} {got[2][:300]!r}'
    return f'Go ends {right[0]} {right[2]!r}, ours {got[0]} {got[2][:300]!r}'


main()
