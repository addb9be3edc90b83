#!/usr/bin/env python3
"""Counts the places of the design pass (docs/DESIGN-PASS.md) in src/ and proofs/, point by point, at a commit or as the
files stand. `tools/places.py [COMMIT] [-v]`: with -v each place. It goes by text: what a line of it counts, the page says."""
import re, subprocess, sys, glob, os
os.chdir(os.path.join(os.path.dirname(os.path.realpath(sys.argv[0])), '..'))
args = [a for a in sys.argv[1:] if a != '-v']
verbose = '-v' in sys.argv
commit = args[0] if args else None

def names(pattern):
    if commit:
        out = subprocess.run(['git', 'ls-tree', '-r', '--name-only', commit, 'crates'], capture_output=True, text=True, check=True).stdout
        return [n for n in out.split('\n') if re.fullmatch(pattern, n)]
    return sorted(n for n in glob.glob('crates/**/*', recursive=True) if re.fullmatch(pattern, n))

def text(name):
    if commit:
        return subprocess.run(['git', 'show', f'{commit}:{name}'], capture_output=True, text=True, check=True).stdout
    return open(name).read()

src = {n: text(n) for n in names(r'crates/[^/]+/src/.*\.rt')}
lines = [(n, i + 1, l) for n, t in src.items() for i, l in enumerate(t.split('\n')) if not l.strip().startswith(('//', 'ghost use'))]

def code(t):
    return re.sub(r'//[^\n]*', '', t)

def bodies():
    """Each function: file, name, parameters as text, result type, body."""
    for n, t in src.items():
        t = code(t)
        for m in re.finditer(r'\bfn (\w+)(?:<[^(]*?>)?\(', t):
            i, depth = m.end(), 1
            while depth:
                depth += {'(': 1, ')': -1}.get(t[i], 0)
                i += 1
            params = t[m.end():i - 1]
            rest = t[i:]
            result = re.match(r'\s*->\s*([^\n{]*)', rest)
            start = re.search(r'\n\s*\{\n|\{ *\n|\) \{', rest)
            yield n, m.group(1), params, (result.group(1).strip() if result else ''), rest

def count(title, places):
    print(f'{len(places):5}  {title}')
    if verbose:
        for p in places:
            print('         ', p)

def at(pattern):
    return [f'{n}:{i}: {l.strip()}' for n, i, l in lines if re.search(pattern, l)]

functions = list(bodies())
print(f'      {len(functions)} functions, {sum(t.count(chr(10)) for t in src.values())} lines of src/')

enums = []
for n, t in src.items():
    for m in re.finditer(r'\benum (\w+)[^{]*\{(.*?)\n\}', code(t), re.S):
        variants = re.findall(r'^    (\w+)(\([^)]*\)|\s*\{[^}]*\})?', m.group(2), re.M)
        if len(variants) == 2 and sum(bool(v[1].strip()) for v in variants) >= 1:
            enums.append(f'{n}: {m.group(1)} {[v[0] for v in variants]}')
count('1a enums of two variants, one at least with a value (the shape of Option and Result)', enums)
count('1b fields that say whether the value beside them holds: refused, good, whole', at(r'^\s+(pub )?(refused|good|whole): (u8|bool),'))
count('1c results that are a refusal\'s number or 0, and refusals made of a number', [f'{n}: {f}' for n, f, p, r, b in functions if re.search(r'refus|unfit', f) and r.startswith('u8')] + at(r'Refused\(\d+\)|return [123]?\d;$|(refuse|unstarted|refused)\(\d\d'))
count('1d numbers for kinds: fields service, status and results of a kind\'s number', at(r'^\s+(pub )?(service|status|phase|served|form): u8,'))
WORDS = set('fn pub let mut if else match return for in while true false as ref unsafe extern self u8 u16 u32 u64 usize bool'.split())


def close(t, i):
    """The place behind the brace that closes the one at i."""
    depth = 0
    while True:
        depth += {'{': 1, '}': -1}.get(t[i], 0)
        i += 1
        if not depth:
            return i


def shape(p, rest):
    """A function's parameters and body with each name and number by the order of its first use, and its lines."""
    i = 0
    while True:
        m = re.compile(r'\s*(?:->[^{]*?)?\s*(?:requires|ensures)\*?\s*\w*\s*(?=\{)').match(rest, i)
        if not m:
            break
        i = close(rest, m.end())
    body = rest[rest.index('{', i):close(rest, rest.index('{', i))]
    seen = {}
    t = re.sub(r"b?'[^']'|b?\"[^\"]*\"|\b\w+(?:::\w+)*\b",
               lambda m: m[0] if m[0] in WORDS else str(seen.setdefault(m[0], len(seen))), p + body)
    return re.sub(r'\s+', ' ', t), body.count('\n')


shapes = {}
for n, f, p, r, b in functions:
    try:
        t, n_lines = shape(p, b)
    except (ValueError, IndexError):
        continue
    if n_lines >= 3:
        shapes.setdefault(t, []).append(f'{n.split("/")[1]}::{f}')
count('2  functions whose parameters and body of three lines and more are another\'s but for names and numbers',
      [', '.join(v) for v in shapes.values() if len(v) > 1 for _ in v[1:]])
count('3  loops by while', at(r'^\s*(\'\w+: )?while '))
count('4a truth values by branches: `return true;`, `return false;`, `{ true } else { false }`', at(r'return (true|false);|\{ true \} else \{ false \}|^\s+(true|false)$'))
count('4b chains of equal tests that return a value each (`if n == 3 {` ..)', at(r'^\s*if \w+(\.\w+)* == \w+ \{$'))
count('4c fields copied one by one: `field: r.field,`', at(r'^\s+(\w+): \w+\.\1,$'))
count('4d `frame::wide`, an octet as a count', at(r'\bwide\('))
count('5a functions of eight parameters and more', [f'{n}: {f} ({q})' for n, f, p, r, b in functions if (q := len([x for x in p.split(':')]) - 1) >= 8])
count('5b parameters high, harea, low, larea side by side', at(r'^\s+harea: &') + [f'{n}: {f}' for n, f, p, r, b in functions if 'harea' in p and '\n' not in p])
count('6  arrays that begin with a length', at(r'\[\d, b\''))
count('7  parameters of type bool', [f'{n}: {f}' for n, f, p, r, b in functions if re.search(r': bool', p)])
count('-  values taken out of a field first: `let x = y.x;`', at(r'^\s+let (\w+) = \w+\.\1;$'))
answers = names(r'crates/[^/]+/proofs/.*Answers\.antt')
count('8a files Answers.antt', answers)
total = sum(text(a).count('\n') for a in answers)
print(f'{total:5}  8b lines of them')
inv = names(r'crates/[^/]+/proofs/.*Invariants\.antt')
print(f'{len(inv):5}  8c files Invariants.antt')
