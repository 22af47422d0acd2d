#!/usr/bin/env python3
"""Places where the code may read like an older language: what docs/DESIGN-PASS.md counts.

Use: tools/places.py [POINT ..]      from the top of the repository; without a point, all of 1 to 8

Reads crates/*/src/**/*.rt (and, for point 8, crates/*/proofs) as text and prints a line for each place, then the count.
It finds places to look at, and no verdicts: what stands in the page is what was made of each.
"""
import collections, itertools, pathlib, re, sys

FILES = sorted(pathlib.Path('crates').glob('*/src/**/*.rt'))
HEAD = re.compile(r'^(\s*)(?:pub(?:\([a-z]+\))? )?(?:final )?(?:const )?fn (\w+)')
PARAM = re.compile(r'(\w+): ((?:&mut |&)?[\w\[\]<>, \':]+?)(?=,\s*\w+:|,?\s*$)')


class Function:
    def __init__(self, path, line, name, head, clauses, body):
        self.path, self.line, self.name, self.head, self.clauses, self.body = path, line, name, head, clauses, body
        self.crate = path.parts[1]
        self.where = f'{path}:{line} {name}'

    def parameters(self):
        inner = self.head[self.head.index('(') + 1:]
        inner = inner[:inner.rindex(')')] if ')' in inner else inner
        inner = re.sub(r'\s+', ' ', inner)
        found, depth, part = [], 0, ''
        for c in inner + ',':
            depth += c in '<([' and 1 or c in '>)]' and -1 or 0
            if c == ',' and depth == 0:
                if ':' in part:
                    found.append(part.strip())
                part = ''
            else:
                part += c
        return found


def functions():
    for path in FILES:
        lines = path.read_text().split('\n')
        i = 0
        while i < len(lines):
            m = HEAD.match(lines[i])
            if not m:
                i += 1
                continue
            indent, start = m[1], i
            head, clauses, body, at = [], [], [], 'head'
            while i < len(lines):
                text = lines[i]
                word = text.strip().split(' ')[0]
                if at == 'head' and word in ('requires', 'ensures'):
                    at = 'clauses'
                if at == 'clauses' and word in ('requires', 'ensures'):
                    clauses.append(text.strip())
                elif at == 'clauses' and text.rstrip() == indent + '{':
                    at = 'body'
                elif at == 'head':
                    head.append(text)
                    if text.rstrip().endswith('{'):
                        at = 'body'
                    elif text.rstrip().endswith('{}') or text.rstrip().endswith(';'):
                        break
                elif at == 'body':
                    if text == indent + '}':
                        break
                    body.append(text)
                if at == 'clauses' and (text.rstrip().endswith('{}') and word == '{}' or text.rstrip().endswith('};')):
                    break
                i += 1
            yield Function(path, start + 1, m[2], '\n'.join(head), clauses, '\n'.join(body))
            i += 1


FUNCTIONS = list(functions())


def lines_with(pattern, only=lambda path: True):
    for path in FILES:
        if only(path):
            for n, text in enumerate(path.read_text().split('\n'), 1):
                if re.search(pattern, text) and not text.strip().startswith('//') and not text.startswith('ghost use'):
                    yield f'{path}:{n} {text.strip()}'


def point_1():
    for path in FILES:
        text = path.read_text()
        for m in re.finditer(r'enum (\w+)[^{]*\{(.*?)\n\}', text, re.S):
            body = re.sub(r'//.*', '', m[2])
            variants = [v.strip().rstrip(',') for v in re.split(r',\n(?=    \w)', body) if re.match(r'\w', v.strip())]
            shapes = sorted(0 if re.fullmatch(r'\w+', v) else 1 if re.fullmatch(r'\w+\([^,()]*\)', v) else 2 for v in variants)
            names = {re.match(r'\w+', v)[0] for v in variants}
            if shapes == [0, 1] or shapes == [1, 1] or names & {'None', 'Nothing', 'Ok', 'Err', 'Some'}:
                yield f'{path} enum {m[1]}: the shape of Option or Result'
    for place in lines_with(r'^\s*(pub )?(kind|reason|side|code): u(8|32)\b'):
        yield place + '   [a number for a kind]'
    for f in FUNCTIONS:
        to = re.findall(r'^\s*\w+::\w+(?:\s*\|\s*\w+::\w+)* => \d+,', f.body, re.M) + re.findall(r'^\s*(?:Some\(\w+::\w+\)|None) => \d+,', f.body, re.M)
        of = re.findall(r'^\s*\d+(?: if \w+)? => (?:Some|Ok)\(', f.body, re.M)
        if len(to) > 1 or len(of) > 1:
            yield f.where + '   [a number for a kind, by match]'
        for n in re.findall(r'\bkind: \d+', f.body):
            yield f.where + f'   [{n}]'
        if re.search(r'-> Option<\w*(Error|Fault)>', f.head):
            yield f.where + '   [an error as an Option]'
        for n in re.findall(r'Err\((\w+)\) => (?:return )?Err\(\1\)|if let Some\(\w+\) = .*\{\s*return Err|else \{\s*return Err\(Refused\)', f.body):
            yield f.where + '   [an error passed on by hand]'


def plain(text):
    text = re.sub(r'//.*', '', text)
    text = re.sub(r'\b[A-Z][A-Za-z_0-9]*\b', 'T', text)
    text = re.sub(r'\b\d[\d_]*\b', 'N', text)
    return re.sub(r'\s+', ' ', text).strip()


def point_2():
    same = collections.defaultdict(list)
    for f in FUNCTIONS:
        if f.clauses:
            same[(f.crate, tuple(sorted(c for c in f.clauses)))].append(f)
    seen = set()
    for (crate, clauses), fs in sorted(same.items(), key=lambda x: x[1][0].where):
        if len(fs) > 1 and len({f.name for f in fs}) > 1:
            yield ' = '.join(f.where for f in fs) + '   [the same contract]'
            seen.update(f.where for f in fs)
    alike = collections.defaultdict(list)
    for f in FUNCTIONS:
        if 'tests' in f.path.parts[1] or f.path.name == 'tests.rt':
            continue
        body = plain(f.body)
        if len(body) > 24:
            alike[(plain(f.head.split('(')[-1]), body)].append(f)
    for _, fs in sorted(alike.items(), key=lambda x: x[1][0].where):
        if len(fs) > 1:
            yield ' ~ '.join(f.where for f in fs) + '   [one body but for types and constants]'
    for path in FILES:
        m = re.search(r'struct \w+ \{[^}]*^\s*buys: (\w+),\n\s*sells: \1', path.read_text(), re.M)
        if m:
            yield f'{path} struct with buys: {m[1]}, sells: {m[1]}   [a struct that differs in a type]'
    sides = [f for f in FUNCTIONS if re.search(r'Side::Buy => self\.buys\.(\w+)\(.*\n\s*Side::Sell => self\.sells\.\1\(', f.body)]
    for f in sides:
        yield f.where + '   [a call for each side]'


def point_3():
    yield from lines_with(r'^\s*for \w+ in \(?[^{]*\.\.')
    yield from lines_with(r'^\s*[\w.]+ [+-]= 1;')


def point_4():
    yield from lines_with(r'\.0 (==|!=|<|<=|>|>=) [\w.]*\.0\b')
    for f in FUNCTIONS:
        if 'tests' in f.path.parts[1] or f.path.name == 'tests.rt':
            continue
        if re.search(r"text: &mut String|-> &'static str", f.head):
            yield f.where + '   [printing]'
        if re.fullmatch(r'number|refusal|line|named|side|as_\w+|side_code|side_of|kind_of|of_fill', f.name) and re.search(r'match|\{\n', f.body) and '->' in f.head:
            yield f.where + '   [a conversion]'


def point_5():
    by_clause = collections.defaultdict(list)
    for f in FUNCTIONS:
        for c in f.clauses:
            text = re.sub(r'^(requires|ensures)( \w+)? ', '', c)
            by_clause[(f.crate, text)].append(f)
    for (crate, text), fs in sorted(by_clause.items()):
        if len({f.where for f in fs}) > 2:
            yield f'{crate}: in {len(fs)} functions: {text}   [a fact in three contracts or more]'
    sets = collections.defaultdict(list)
    for f in FUNCTIONS:
        sets[f.crate].append((f.where, frozenset(re.sub(r"'\w+ ", '', p) for p in f.parameters())))
    for crate, fs in sorted(sets.items()):
        groups = {a & b & c for (_, a), (_, b), (_, c) in itertools.combinations(fs, 3) if len(a & b & c) > 2}
        for group in sorted(groups, key=lambda g: sorted(g)):
            if not any(group < g for g in groups):
                n = sum(1 for _, ps in fs if group <= ps)
                yield f'{crate}: in {n} functions: {", ".join(sorted(group))}   [parameters together]'


def point_6():
    for f in FUNCTIONS:
        ps = f.parameters()
        if any('[' in p and ';' not in p for p in ps):
            for p in ps:
                if re.fullmatch(r'(n|at|count|from|to|held|len): usize|counts: Counts', p):
                    yield f.where + f'   [a slice with {p}]'
    for path in FILES:
        text = path.read_text()
        for m in re.finditer(r'^    (\w+): \[[^\]]*; \w+\],(?:\n\s*(count|len): usize)?', text, re.M):
            if '(' not in m[0]:
                yield f'{path} {m[0].strip()}'.replace('\n', ' ') + '   [an array as a list]'
        m = re.search(r'struct \w+ \{[^}]*^\s*buys: (\w+),\n\s*sells: \1', text, re.M)
        if m:
            yield f'{path} buys, sells: {m[1]}   [parallel fields]'
    for f in FUNCTIONS:
        if re.search(r'for \w+ in .*\{\n(?:.*\n)?.*return (Some\(|true)', f.body):
            yield f.where + '   [a search by hand]'


def point_7():
    yield from lines_with(r'\bfn\(|\bdyn \w|\[fn')
    shapes = collections.defaultdict(list)
    for f in FUNCTIONS:
        calls = re.findall(r'\b(\w+)\(', re.sub(r'\b(Some|Ok|Err|Quantity|Money|Number)\(', '', f.body))
        if len(f.parameters()) > 5 and len(f.body.split('\n')) > 4:
            shapes[f.crate].append((f, calls))
    for crate, fs in shapes.items():
        for (f, a), (g, b) in itertools.combinations(fs, 2):
            if a and b and a[-1] == b[-1] and len(set(a) ^ set(b)) in (2, 3) and len(set(a) & set(b)) > 0:
                yield f'{f.where} / {g.where}   [one step differs]'


def point_8():
    for crate in sorted(pathlib.Path('crates').glob('*/proofs')):
        answers = sum(len(re.findall(r'^pub [\w-]+ : goal\.', p.read_text(), re.M)) for p in crate.rglob('Answers.antt'))
        files = len(list(crate.rglob('Answers.antt')))
        lemmas = sum(len(re.findall(r'^(?:pub )?[\w-]+(?: \{.*?\})* : ', p.read_text(), re.M)) for p in crate.glob('*.antt'))
        lines = sum(len(p.read_text().split('\n')) for p in crate.rglob('*.antt'))
        yield f'{crate.parts[1]}: {answers} answers in {files} files, {lemmas} lemmas, {lines} lines'


def main():
    wanted = sys.argv[1:] or [str(n) for n in range(1, 9)]
    for n in wanted:
        places = list(globals()[f'point_{n}']())
        print(f'== point {n}')
        print(*places, sep='\n')
        print(f'-- point {n}: {len(places)}')


main()
