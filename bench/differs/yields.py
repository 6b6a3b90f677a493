"""yields.py FROM TO: the programs below the folder FROM once more, where each function and literal yields first: it
prints the same, but each function may wait, so that all become machines."""
import os
import re
import sys


# Where the body that follows the word `func` begins, or none where a type stands there.
def body(text, at):
    depth = 0
    while at < len(text):
        c = text[at]
        depth += (c in '([') - (c in ')]')
        if depth < 0 or c == '"' or depth == 0 and c in ';,=\n':
            return None
        if c == '{' and depth == 0:
            if not text[:at].rstrip().endswith(('interface', 'struct')):
                return at
            depth += 1
        elif c == '}':
            depth -= 1
        elif c == '{':
            depth += 1
        at += 1
    return None


def yielding(text):
    out, done = '', 0
    for word in re.finditer(r'\bfunc\b', text):
        if text[:word.start()].rstrip().endswith((']', '*')):
            continue
        at = body(text, word.end())
        if at is not None and at >= done:
            out += text[done:at + 1] + ' runtime.Gosched(); '
            done = at + 1
    if not done:
        return text
    return re.sub(r'^(package \w+\n)', r'\1\nimport "runtime"\n', out + text[done:], count=1, flags=re.M)


def main():
    for folder, _, names in os.walk(sys.argv[1]):
        to = os.path.join(sys.argv[2], os.path.relpath(folder, sys.argv[1]))
        for name in names:
            if name.endswith(('.go', '.mod')):
                os.makedirs(to, exist_ok=True)
                with open(os.path.join(folder, name)) as f:
                    text = f.read()
                with open(os.path.join(to, name), 'w') as f:
                    f.write(yielding(text) if name.endswith('.go') else text)


main()
