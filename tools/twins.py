#!/usr/bin/env python3
"""Lists functions of src/ whose bodies differ in names, types and numbers alone.

    python3 tools/twins.py          groups of functions with the same tokens, names and numbers left out
"""
import glob, re, sys, collections
KEY = set('if else while for in match return let mut break continue as loop fn ref true false Some None Ok Err'.split())
def functions(text):
    for m in re.finditer(r'^\s*(?:pub )?(?:extern "C" )?fn (\w+)', text, re.M):
        # the body: the first '{' at column 0 or of the same indent behind the clauses
        indent = re.match(r'[ \n]*', m.group(0)).group(0).split('\n')[-1]
        b = re.compile(r'^' + indent + r'\{\s*$', re.M).search(text, m.end())
        nxt = re.compile(r'^\s*(?:pub )?(?:extern "C" )?fn \w+', re.M).search(text, m.end())
        if not b or (nxt and nxt.start() < b.start()):
            continue
        e = re.compile(r'^' + indent + r'\}', re.M).search(text, b.end())
        yield m.group(1), text[b.end():e.start()], text.count('\n', 0, m.start() + len(m.group(0)))
def tokens(body):
    body = re.sub(r'//.*', '', body)
    out = []
    for t in re.findall(r"b'(?:\\.|[^'])'|[A-Za-z_]\w*|\d+|\S", body):
        if re.match(r'[A-Za-z_]', t) and t not in KEY:
            t = 'n'
        elif re.match(r"\d|b'", t):
            t = '0'
        out.append(t)
    return tuple(out)
groups = collections.defaultdict(list)
for f in sorted(glob.glob('crates/*/src/*.rt')):
    text = open(f).read()
    for name, body, line in functions(text):
        t = tokens(body)
        if len(t) >= 20:
            groups[t].append(f'{f}:{line + 1}: {name}')
n = 0
for t, places in groups.items():
    if len(places) > 1:
        n += len(places)
        print(f'{len(t)} tokens'); [print('   ', p) for p in places]
print('functions that have a twin:', n)
