#!/usr/bin/env python3
"""Finds places where the source could be written in a newer form, by the kinds of docs/DESIGN-PASS.md.

    python3 tools/forms.py            counts, for the files as they lie here
    python3 tools/forms.py COMMIT     the same for a commit
    python3 tools/forms.py -v ..      each place too, as FILE:LINE: TEXT

It goes by text, so it finds candidates: what each of them is, the page says. Tests and the programs' tests are left out.
"""
import re
import subprocess
import sys
from collections import defaultdict

# Rattle keywords and names that are not turned when two functions are compared
KEPT = set('fn let mut for in if else while loop match return break continue as pub self Some None Ok Err true false'.split())


def files(commit):
    """The source files as (name, text)."""
    if commit:
        names = subprocess.run(['git', 'ls-tree', '-r', '--name-only', commit, 'crates'], capture_output=True, text=True, check=True).stdout.split()
    else:
        names = subprocess.run(['git', 'ls-files', '-co', '--exclude-standard', 'crates'], capture_output=True, text=True, check=True).stdout.split()
    for name in sorted(names):
        if not re.search(r'/src/.*\.rt$', name) or 'tests' in name:
            continue
        if commit:
            yield name, subprocess.run(['git', 'show', f'{commit}:{name}'], capture_output=True, text=True, check=True).stdout
        else:
            try:
                with open(name) as f:
                    yield name, f.read()
            except FileNotFoundError:
                pass


def functions(text):
    """The functions of a file as (line, name, head, body)."""
    lines = text.split('\n')
    i = 0
    while i < len(lines):
        found = re.match(r'(\s*)(?:pub(?:\(crate\))? )?(?:const )?fn (\w+)', lines[i])
        if not found:
            i += 1
            continue
        indent, start = found.group(1), i
        while i < len(lines) and lines[i] != indent + '{' and not lines[i].endswith(('{}', ';')) and not re.match(indent + r'.*\{$', lines[i]):
            i += 1
        head = '\n'.join(lines[start:i + 1])
        opened = i
        if i < len(lines) and lines[i].endswith('{'):
            while i < len(lines) and lines[i] != indent + '}':
                i += 1
        yield start + 1, found.group(2), head, '\n'.join(lines[opened + 1:i])
        i += 1


def blocks(body):
    """The loops of a body as (offset of the line, head, text of the loop)."""
    lines = body.split('\n')
    for i, line in enumerate(lines):
        found = re.match(r"(\s*)(?:'\w+: )?(for|while) .*\{$", line)
        if found:
            j = i + 1
            while j < len(lines) and lines[j] != found.group(1) + '}':
                j += 1
            yield i, line.strip(), '\n'.join(lines[i + 1:j])


def lines_with(text, patterns):
    """Each line of a text once for each of the patterns that stands in it, with its number."""
    for n, line in enumerate(text.split('\n'), 1):
        for pattern in patterns:
            if re.search(pattern, line):
                yield n, line


# numbers for kinds and causes, functions that answer a number for nothing, errors mapped by hand
NUMBERED = (
    r'\b(kind|cause|code|state): u(8|16|32)\b',
    r'^pub fn \w+\(\) -> u8$',
    r'\bErr\(\w+\) => Err\(|\bOk\(\(\)\) => Ok\(\(\)\)|Err\(_\) => unreachable',
    r'\b(kind|cause) (==|<=|>=) \d',
)

# comparison, flags as numbers, comparisons field by field, a dimension printed
BY_HAND = (
    r'impl(<.*>)? (PartialEq|Eq|PartialOrd|Ord|Clone|Copy|Debug|Hash)\b',
    r'\{ [12] \} else \{ 0 \}',
    r'^\s*(pub(\(crate\))? )?fn (same_|is_digit|bit\b|\w+_number\(cause)',
    r'(\w+)\.\w+ == (\w+)\.\w+ && \1\.\w+ == \2\.\w+|\w+ < \w+ \|\| \w+ == \w+ && \w+ < \w+',
    r'write!\(.*\{size\}/\{edge\}|format!\(.*\{size\}/\{edge\}',
)

# a function picked by a match, or kept in a table
SWITCHES = (r'\w+::\w+ => \w+(::<\w+>)?\((heap|bytes|cells)|:\s*fn\(',)


def shape_of(body):
    def word(m):
        w = m.group(0)
        return w if w in KEPT else ('0' if w[0].isdigit() else 'x')
    body = re.sub(r'//.*', '', body)
    return re.sub(r'\s+', ' ', re.sub(r'\w+', word, body)).strip()


def index_loops(text):
    for start, fname, head, body in functions(text):
        first = start + head.count('\n') + 1
        for at, loop, inside in blocks(body):
            ranged = re.match(r"(?:'\w+: )?for (\w+) in .*\.\.", loop)
            if ranged and re.search(r'\[[^\]]*\b' + ranged.group(1) + r'\b[^\]]*\]', inside):
                yield first + at, f'{fname}: {loop}'
            if 'while' in loop and re.search(r'^\s*(\w+) [+-]= 1;', inside, re.M):
                yield first + at, f'{fname}: {loop}'


def fields(text):
    for found in re.finditer(r'struct (\w+)[^{;]*\{\n(.*?)\n\}', text, re.S):
        line = text[:found.start()].count('\n') + 1
        yield line, found.group(1), [f.strip() for f in found.group(2).split('\n')]


def beside(text):
    for line, struct, fs in fields(text):
        arrays = [re.search(r'(\w+): \[[^;\]]+; (\w+)\]', f) for f in fs if 'ghost' not in f]
        sizes = defaultdict(list)
        for a in arrays:
            if a:
                sizes[a.group(2)].append(a.group(1))
        if any(sizes) and any(re.search(r'\b(n|used|len): usize', f) for f in fs):
            yield line, f'{struct}: a length beside {sum(sizes.values(), [])}'
        for k, names in sizes.items():
            if len(names) > 1:
                yield line, f'{struct}: arrays of {k} side by side: {names}'
        if any('ups' == f or re.search(r'\bup: usize', f) for f in fs):
            yield line, f'{struct}: an index for a link'


def main():
    args = [a for a in sys.argv[1:] if a != '-v']
    verbose = '-v' in sys.argv
    commit = args[0] if args else None
    found = defaultdict(list)
    shapes = defaultdict(list)
    clauses = defaultdict(list)
    params = defaultdict(list)
    for name, text in files(commit):
        crate = name.split('/')[1]
        places = {
            'kinds': lines_with(text, NUMBERED),
            'loops': index_loops(text),
            'by hand': lines_with(text, BY_HAND),
            'lengths': beside(text),
            'switches': lines_with(text, SWITCHES),
        }
        for kind, at in places.items():
            found[kind] += [f'{name}:{line}: {what.strip()}' for line, what in at]
        for line, fname, head, body in functions(text):
            shape = shape_of(body)
            if shape and len(re.findall(r'\w+|[^\w\s]', shape)) >= 7:
                shapes[shape].append(f'{name}:{line}: {fname}')
            for clause in re.findall(r'requires (?:\w+ )?\{ (.*) \}', head):
                clauses[crate, re.sub(r'\.(now|old|new)\b', '', clause)].append(f'{name}:{line}: {fname}')
            ps = tuple(sorted(set(re.findall(r'\b([a-z_]\w*: (?:&mut |&)?(?:\[\w+; \d+\]|\[\w+\]|\w+))', head.split('ensures')[0].split('requires')[0]))))
            for i in range(len(ps)):
                for j in range(i + 1, len(ps)):
                    for k in range(j + 1, len(ps)):
                        params[crate, (ps[i], ps[j], ps[k])].append(f'{name}:{line}: {fname}')
    for shape, where in shapes.items():
        if len(where) > 1:
            for w in where:
                found['twins'].append(f'{w}   [with {len(where) - 1} more]')
    for (crate, clause), where in clauses.items():
        if len(where) > 2:
            found['facts'].append(f'{crate}: `{clause}` in {len(where)}: ' + ', '.join(w.split(': ')[-1] for w in where))
    for (crate, ps), where in params.items():
        if len(where) > 2:
            found['facts'].append(f'{crate}: ({", ".join(ps)}) in {len(where)}: ' + ', '.join(w.split(': ')[-1] for w in where))
    for kind in ('kinds', 'twins', 'loops', 'by hand', 'facts', 'lengths', 'switches'):
        print(f'{kind}: {len(found[kind])}')
        if verbose:
            for f in sorted(found[kind]):
                print('   ', f)


if __name__ == '__main__':
    main()
