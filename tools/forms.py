#!/usr/bin/env python3
"""Lists the places of older forms in crates/*/src, a heading for each kind and a line for each place; the counts stand at the end.

tools/forms.py [FOLDER]    FOLDER is another checkout, else this one

What is listed is found by the text alone, so that a second run finds the same; docs/DESIGN-PASS.md says which of them are changed and
which stay, and why.
"""
import pathlib
import re
import sys

TOP = pathlib.Path(sys.argv[1] if len(sys.argv) > 1 else pathlib.Path(__file__).resolve().parents[1])
NUMBER = r'(?:u8|u16|u32|u64|usize|i8|i16|i32|i64)'
found = {}


def place(kind, path, line, text):
    found.setdefault(kind, []).append(f'{path.relative_to(TOP)}:{line}: {text.strip()}')


def functions(text):
    """Each function: the line that it begins in, its name, its parameters, its clauses and its body."""
    for match in re.finditer(r'^[ \t]*(?:pub )?fn (\w+)', text, re.M):
        at = text.index('(', match.end())
        depth, end = 0, at
        while True:
            depth += {'(': 1, ')': -1}.get(text[end], 0)
            end += 1
            if depth == 0:
                break
        body = re.compile(r'(?: |^[ \t]*)\{$', re.M).search(text, end)
        if not body:
            continue
        depth, last = 0, body.end() - 1
        while True:
            depth += {'{': 1, '}': -1}.get(text[last], 0)
            last += 1
            if depth == 0:
                break
        parameters = re.sub(r'\s+', ' ', text[at + 1:end - 1]).strip(' ,')
        yield text[:match.start()].count('\n') + 1, match[1], parameters, text[end:body.start()], text[body.end():last - 1]


def shape(body):
    """A body with its types, names and numbers left out: two functions of one shape may be one function."""
    body = re.sub(r'//.*', '', body)
    body = re.sub(r'\b' + NUMBER + r'\b', 'T', body)
    body = re.sub(r'\b\d\w*\b|b?"[^"]*"|b\'.\'', '0', body)
    return re.sub(r'\s+', ' ', re.sub(r'\b(?!if\b|else\b|while\b|for\b|match\b|return\b|let\b|mut\b|as\b|in\b|loop\b|T\b)[a-z_]\w*', 'n', body)).strip()


shapes, clauses, together = {}, {}, {}
for path in sorted(TOP.glob('crates/*/src/**/*.rt')):
    text = path.read_text()
    lines = text.split('\n')
    for number, line in enumerate(lines, 1):
        code = line.split('//')[0]
        comment = line[len(code):]
        if re.match(r'\s*(pub )?enum ', code):
            cases = ' '.join(re.split(r'[^A-Za-z(),0-9]+', text.split('\n', number)[number].split('}')[0])).strip()
            place('1 enums', path, number, f'{code.strip(" {")}: {cases}')
        if re.match(r'\s*(pub )?\w+: bool,', code):
            place('1 flags in a struct', path, number, code)
        if re.search(r'\b(or 0|or 256|or 65536|0 (is|where)( there is)? (none|there)|0 where|, 0 for|0 and 0|0 to 0)\b', comment):
            place('1 numbers that mean none', path, number, comment)
        if re.match(r'\s*(while|loop)\b', code):
            place('3 loops that are no `for`', path, number, code)
        if re.search(r'([*/%] ?(256|65536|16777216|4294967296)|(256|65536|16777216|4294967296) ?\*)', code):
            place('4 bytes taken apart or put together by hand', path, number, code)
        if re.search(r'io::(print_decimal|write_all)', code):
            place('4 printing by hand', path, number, code)
        if re.match(r'\s*match (kind|how|what)\b', code) or re.search(r'\bfn\(', code):
            place('7 switches on a kind, pointers to functions', path, number, code)
        if re.match(r'\s*(pub )?(size|long|len|end|count): ', code):
            place('6 lengths beside a buffer', path, number, code)
        if re.search(r'\b(4097|8193)\b', code):
            place('6 columns of one array', path, number, code)
    for number, name, parameters, contract, body in functions(text):
        if re.fullmatch(r'\s*(let \w+ = )?\w+ as ' + NUMBER + r';?\s*\w*\s*', body):
            place('4 functions that are a cast', path, number, name)
        if body.count('\n') > 3:
            shapes.setdefault(shape(body), []).append((path, number, name))
        names = [p.strip() for p in re.split(r',(?![^<\[(]*[>\])])', parameters) if ':' in p]
        for i, one in enumerate(names):
            for other in names[i + 1:]:
                together.setdefault((one, other), []).append((path, number, name))
        for clause in re.findall(r'(?:requires|ensures)(?: \w+)? \{ (.*) \}', contract):
            if 'result' not in clause and '.new' not in clause:
                clauses.setdefault(clause, []).append((path, number, name))
for members in shapes.values():
    if len(members) > 1:
        for path, number, name in members:
            place('2 functions of one shape', path, number, f'{name} (as {", ".join(n for p, l, n in members if (p, l) != (path, number))})')
for clause, members in clauses.items():
    if len(members) > 2:
        for path, number, name in members:
            place('5 facts in three contracts or more', path, number, f'{name}: {clause}')
for pair, members in together.items():
    if len(members) > 2:
        for path, number, name in members:
            place('5 parameters that travel together', path, number, f'{name}: {pair[0]}, {pair[1]}')
for path in sorted(TOP.glob('crates/*/proofs/*/*.antt')):
    for number, line in enumerate(path.read_text().split('\n'), 1):
        if re.match(r'pub \S+ : goal\.', line):
            place('8 answers', path, number, line)

for kind in sorted(found):
    if kind != '8 answers':
        print(f'# {kind}')
        print('\n'.join(found[kind]))
for kind in sorted(found):
    print(f'{len(found[kind]):5} {kind}')
