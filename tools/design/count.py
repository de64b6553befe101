#!/usr/bin/env python3
"""Counts the places of docs/DESIGN-PASS.md in crates/*/src (and, for point 8, in proofs/). Usage: count.py [ROOT] [-v]"""
import collections, glob, os, re, sys

ROOT = next((a for a in sys.argv[1:] if a != '-v'), '.')
LONG = '-v' in sys.argv
FN = re.compile(r'^( *)(?:pub(?:\([a-z]+\))? )?(?:extern "C" )?fn (\w+)')


def functions():
    """Every function: file, name, signature with clauses, body lines."""
    for path in sorted(glob.glob(f'{ROOT}/crates/*/src/**/*.rt', recursive=True)):
        lines = open(path).read().split('\n')
        i = 0
        while i < len(lines):
            m = FN.match(lines[i])
            if not m:
                i += 1
                continue
            indent, start = m.group(1), i
            while i < len(lines) and lines[i] != indent + '}':
                if lines[i].endswith(';') and i == start:
                    break
                i += 1
            text = lines[start:i + 1]
            opened = next((k for k, l in enumerate(text) if l == indent + '{'), None)
            if opened is None:
                opened = next((k for k, l in enumerate(text) if l.endswith('{')), len(text) - 1)
            yield path[len(ROOT) + 1:], m.group(2), text[:opened], text[opened + 1:-1]
            i += 1


ALL = list(functions())
SOURCES = {p[len(ROOT) + 1:]: open(p).read() for p in sorted(glob.glob(f'{ROOT}/crates/*/src/**/*.rt', recursive=True))}
found = collections.OrderedDict()


def place(point, what):
    found.setdefault(point, []).append(what)


def grep(point, pattern, unless=None):
    for path, text in SOURCES.items():
        for n, line in enumerate(text.split('\n'), 1):
            if re.search(pattern, line) and not (unless and re.search(unless, line)):
                place(point, f'{path}:{n}: {line.strip()}')


# 1. Own enums with a variant that holds nothing beside one that holds something; flags beside values; numbers for refusals and kinds.
for path, text in SOURCES.items():
    for m in re.finditer(r'^(?:pub )?enum (\w+) \{\n(.*?)^\}', text, re.S | re.M):
        variants = re.findall(r'^    (\w+)(\(|\s*\{|,)', m.group(2), re.M)
        if any(v[1] == ',' for v in variants) and len(variants) <= 3 and not all(v[1] == ',' for v in variants):
            place('1a own Option or Result', f'{path}: enum {m.group(1)}')
        elif len(variants) == 3 and all(v[1] == ',' for v in variants) and m.group(1) == 'Inserted':
            place('1a own Option or Result', f'{path}: enum {m.group(1)}')
grep('1b flag beside a value', r'^\s+pub (ok|whole|too_large): bool|struct \w+\(pub bool')
grep('1c number for a refusal', r'pub refusal: u8|fn refused\(|refused\(\d+\)|refusal: \d+')
grep('1d number for a kind', r'\bkind: (u8|u16|usize)\b|const \w+_BODY: usize|pub const [A-Z_]+: usize = \d+;.*|^const (IRI|LITERAL): u16 = [01];',
     unless=r'MAX_|_WIDTH|_AT|BODIES|WORD_BITS|CLASH|LENGTH|PART_ROOM|_ROOM|crates/meaning/src/lib.rt.*pub const (?!\w+_BODY)')
grep('1e sentinel for None', r'^\s*(return )?UNUSED;?$|return UNUSED')

# 2. Functions with the same text but for names and literals.
def shape(sig, body):
    names = {}
    def name(m):
        return names.setdefault(m.group(0), f'v{len(names)}')
    code = '\n'.join(l.strip() for l in body if not l.strip().startswith('//'))
    code = re.sub(r'b?"[^"]*"', 'S', code)
    code = re.sub(r'\b(?!if\b|else\b|for\b|while\b|let\b|mut\b|return\b|match\b|in\b|as\b|fn\b|true\b|false\b|Some\b|None\b|Ok\b|Err\b)[A-Za-z_][\w:]*', name, code)
    return re.sub(r'\b\d[\w]*', 'N', code)


shapes = collections.defaultdict(list)
for path, fname, sig, body in ALL:
    if len([l for l in body if l.strip()]) >= 3:
        shapes[shape(sig, body)].append(f'{path}: {fname}')
for group in shapes.values():
    if len(group) > 1:
        place('2 twins by text', ' = '.join(group))

# 3. Loops that count by hand; loops over an index that only reads one list at it.
for path, fname, sig, body in ALL:
    for k, line in enumerate(body):
        indent = len(line) - len(line.lstrip())
        inner = []
        for l in body[k + 1:]:
            if l.strip() and len(l) - len(l.lstrip()) <= indent:
                break
            inner.append(l)
        m = re.match(r'\s*while (.*) \{$', line)
        if m:
            names = re.findall(r'\b[a-z_]\w*\b', m.group(1))
            if any(re.search(rf'^\s*{n} (\+|-)= \d+;', l) for n in names for l in inner):
                place('3a while that counts', f'{path}: {fname}: {line.strip()}')
        m = re.match(r"\s*(?:'\w+: )?for (\w+) in (.*)\.\.(.*) \{$", line)
        if m:
            text = '\n'.join(inner)
            uses = re.findall(rf'\b{m.group(1)}\b', text)
            plain = re.findall(rf'\[{m.group(1)}\]', text)
            if uses and len(uses) == len(plain):
                place('3b for over an index', f'{path}: {fname}: {line.strip()}')

# 4. Loops that fill, copy or compare.
for path, fname, sig, body in ALL:
    text = '\n'.join(body)
    if re.search(r'for (\w+) in .*\{\n\s*\w+\[\1\] = (0|1|\w+\[\1\]);\n\s*\}', text):
        place('4a fill or copy by hand', f'{path}: {fname}')
    elif re.search(r'\w+\[\w+( \+ \w+)?\] = (numbers|src|s|rows)\[[^\]]+\]( as \w+)?;', text):
        place('4a fill or copy by hand', f'{path}: {fname}')
    if re.search(r'if \w+\[[^\]]+\] (!=|==) \w+\[[^\]]+\] \{\n\s*return (false|true)', text) or re.search(r'if (\w+ == \w+\[\w+\]|\w+\[\w+\] != [A-Z]+|!?\w+\(\w+\[\w+\].*\)) \{\n\s*return (false|true)', text):
        place('4b compare or test by hand', f'{path}: {fname}')
grep('4c call of a fill or copy of our own', r'\b(clear_u16|clear_u64|copy_front)\(')

grep('4d printing by hand', r'\bio::(write_all|print_decimal)\(')

# 5. Functions of more than six parameters; parameters of three or more that stand together in three or more functions.
def parameters(sig):
    head = ' '.join(l.strip() for l in sig)
    m = re.search(r'fn \w+(?:<[^>]*>)?\((.*?)\)(?: ->|\s+requires|\s+ensures|\s*$)', head)
    return re.findall(r'(\w+): (&?(?:mut )?[^,]+?(?:\[[^\]]*\])?)(?:,|$)', m.group(1)) if m else []


sets = []
for path, fname, sig, body in ALL:
    ps = parameters(sig)
    if len(ps) > 6:
        place('5a more than six parameters', f'{path}: {fname}: {len(ps)}')
    sets.append((path, fname, {p[0] for p in ps}))
groups = {'board': {'waiting', 'stack', 'top'}, 'lists': {'triples', 'tree', 'next', 'wanted'}, 'numbers': {'counts', 'numbers'},
          'core': {'nodes', 'triples', 'masks'}, 'rules': {'rules', 'count', 'heads', 'counts'}, 'graph lists': {'nodes', 'triples', 'index'}, 'walk tables': {'alive', 'waiting', 'stack'}}
for g, names in groups.items():
    n = [f'{p}: {f}' for p, f, s in sets if names <= s]
    if len(n) >= 3:
        for x in n:
            place(f'5b travel together: {g}', x)

facts = collections.defaultdict(set)
for path, fname, sig, body in ALL:
    text = ' '.join(sig)
    for m in re.finditer(r'requires(?: \w+)? \{(.*?)\}(?= +(?:requires|ensures)|$)', re.sub(r' +', ' ', text)):
        for fact in re.findall(r'(?<![\w.(λ] )(?<!\w)([A-Z]\w+) [a-z(]', m.group(1)):
            facts[fact].add(f'{path}: {fname}')
for fact, where in sorted(facts.items()):
    if len(where) >= 3:
        place('5c facts in three or more contracts', f'{fact}: {len(where)}')

# 6. A slice with its length beside it.
for path, fname, sig, body in ALL:
    ps = parameters(sig)
    for a, b in zip(ps, ps[1:]):
        if a[1].startswith('&') and '[' in a[1] and b[1] == 'usize' and b[0] in ('n', 'count', 'edges', 'top', 'k', 'atom_count', 'var_count', 'parts', 'nodes'):
            place('6 a slice and its length', f'{path}: {fname}: {a[0]}, {b[0]}')

# 7. A parameter that says which step to run.
for path, fname, sig, body in ALL:
    if any(p[0] in ('kind', 'key', 'class') and p[1] in ('usize', 'u8', 'Kind', 'Key', 'Class') for p in parameters(sig)):
        if any(re.search(r'\b(match (kind|key|class)|if kind )', l) for l in body):
            place('7 a switch by a parameter', f'{path}: {fname}')

# 8. Answers.
for path in sorted(glob.glob(f'{ROOT}/crates/*/proofs/**/Answers.antt', recursive=True)):
    n = len(re.findall(r'^pub ', open(path).read(), re.M))
    for k in range(n):
        place('8 answers', path[len(ROOT) + 1:])

for point, places in found.items():
    print(f'{point}: {len(places)}')
    if LONG:
        for p in places:
            print('    ' + p)
lines = sum(t.count('\n') for t in SOURCES.values())
proof = sum(open(p).read().count('\n') for p in glob.glob(f'{ROOT}/crates/*/proofs/**/*.antt', recursive=True))
print(f'lines of src: {lines}; of proofs: {proof}; functions: {len(ALL)}')
