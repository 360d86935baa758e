#!/usr/bin/env python3
"""Counts the places of src/ that have a form for which today's Rattle has a plainer one: rows to look at, not verdicts.

    tools/forms.py [DIR]            the count of each form
    tools/forms.py [DIR] --list     and each place, as FILE:LINE what

The numbers before the forms are the points of docs/DESIGN-PASS.md, which says of each place that still counts why it stays.
"""
import collections, pathlib, re, sys

paths = [a for a in sys.argv[1:] if not a.startswith('-')]
top = pathlib.Path(paths[0] if paths else '.')
rows = collections.defaultdict(list)
TEST = re.compile(r'^#\[cfg\(test\)\].*', re.S | re.M)
FUNCTION = re.compile(r'^( *)(?:pub(?:\(crate\))? )?(?:extern "C" )?fn (\w+)(?:<[^>]*>)?\((.*?)\)(?: -> [^\n{]*?)?(?=\n| \{)', re.S | re.M)
ENUM = re.compile(r'^(?:pub(?:\(crate\))? )?enum (\w+) \{\n(.*?)^\}', re.S | re.M)
STRUCT = re.compile(r'^(?:pub(?:\(crate\))? )?struct (\w+)(?:<[^>]*>)? \{\n(.*?)^\}', re.S | re.M)
FAULTS = {'Refusal', 'Fault', 'Reason'}
shapes = collections.defaultdict(list)
travel = collections.defaultdict(set)
facts = collections.defaultdict(list)


def body_of(text, start):
    """A function's body: from the first line that is only `{`, or the one at the end of its head, to the brace that closes it."""
    brace = re.compile(r'(?:^ *| )\{(?=\}?$)', re.M).search(text, start)
    depth, i = 0, brace.end()
    for i in range(brace.end() - 1, len(text)):
        depth += {'{': 1, '}': -1}.get(text[i], 0)
        if depth == 0:
            break
    return text[brace.end():i]


def parameters(text):
    depth, parts, part = 0, [], ''
    for ch in text:
        depth += {'[': 1, '<': 1, '(': 1, ']': -1, '>': -1, ')': -1}.get(ch, 0)
        if ch == ',' and depth == 0:
            parts.append(part)
            part = ''
        else:
            part += ch
    return [re.sub(r'\s+', ' ', re.sub(r"'a ", '', p)).strip() for p in parts + [part] if p.strip()]


for path in sorted(top.glob('crates/*/src/**/*.rt')):
    crate = path.relative_to(top).parts[1]
    text = TEST.sub('', path.read_text(encoding='utf8'))
    where = lambda at: f'{path.relative_to(top)}:{text.count(chr(10), 0, at) + 1}'
    add = lambda form, at, what: rows[form].append(f'{where(at)} {what}')
    for m in ENUM.finditer(text):
        variants = re.findall(r'^    (\w+)(\(.*?\)| \{.*?\}|)(?: = \w+)?,$', re.sub(r'\n {8,}', ' ', m[2]).replace('\n    }', ' }'), re.M)
        held = [v for v in variants if v[1]]
        if held and any(not v[1] or FAULTS & set(re.findall(r'\w+', v[1])) for v in variants):
            add('1 enum of the shape of Option or Result', m.start(), m[1])
    for m in STRUCT.finditer(text):
        fields = re.findall(r'^    (?:pub(?:\(crate\))? )?(\w+): (.*),$', m[2], re.M)
        for name, kind in fields:
            if kind == 'bool':
                add('1 flag in a struct', m.start(), f'{m[1]}.{name}')
        sizes = collections.Counter(kind.split('; ')[-1] for _, kind in fields if kind.startswith('['))
        for size, n in sizes.items():
            if n > 1:
                add('6 parallel arrays in a struct', m.start(), f'{m[1]}: {n} of {size[:-1]}')
    for m in re.finditer(r'^(?:pub(?:\(crate\))? )?const (REFUSED|MALFORMED|NONE|NOBODY|NOWHERE): \w+', text, re.M):
        add('1 number for nothing', m.start(), m[1])
    for m in re.finditer(r'^ *//.*(?:; else 0\.|\b0 where|\b0 for (?:none|what is none)|place 0 means|256 for what is none)', text, re.M):
        add('1 number for nothing', m.start(), m[0].strip())
    for m in re.finditer(r'^ +[\w:]+ => \d+,\n(?: +[\w:]+ => \d+,\n)+', text, re.M):
        add('1 enum to numbers by hand', m.start(), m[0].split('=>')[0].strip())
    for m in re.finditer(r'^ *(?:\'\w+: )?while ', text, re.M):
        add('3 while', m.start(), text[m.start():text.index('\n', m.start())].strip())
    for m in re.finditer(r'^ *\w+\[[^\]\n]*\] = \w+\[[^\]\n]*\];$', text, re.M):
        add('4 element copied by hand', m.start(), m[0].strip())
    for m in re.finditer(r'\* 256 \+|/ 256\b|% 256\) as u8', text):
        add('4 bytes of a word by hand', m.start(), text[text.rindex('\n', 0, m.start()):text.index('\n', m.start())].strip())
    for m in FUNCTION.finditer(text):
        name, body = m[2], body_of(text, m.end())
        head = text[m.end():text.index(body, m.end())] if body else ''
        lines = [x.strip() for x in body.split('\n') if x.strip() and not x.strip().startswith('//')]
        if lines in (['x as usize'], ['x as u64']) or re.fullmatch(r'if \w+ <=? \w+ \{ \w+ \} else \{ \w+ \}', ' '.join(lines)) \
                or re.fullmatch(r'if \w+ <=? \w+ \{ return \w+; \} \w+', ' '.join(lines)):
            add('4 cast, least or most by hand', m.start(), name)
        if re.fullmatch(r'\w+\(\w+::\w+(?:, \w+)+\)', ' '.join(lines)):
            add('7 one of a family, by a constant', m.start(), name)
        params = parameters(m[3])
        sizes = collections.Counter(re.search(r'; (.*)\]', p)[1] for p in params if re.search(r'\[.*; .*\]', p))
        for size, n in sizes.items():
            if n > 1:
                add('6 parallel arrays in parameters', m.start(), f'{name}: {n} of {size}')
        for a, b in zip(params, params[1:]):
            if '[' in a and re.fullmatch(r'(n|m|w|count|size|width): usize', b):
                add('6 buffer with a length beside it', m.start(), f'{name}: {a}, {b}')
        for i in range(len(params) - 2):
            travel[crate, tuple(p for p in params[i:i + 3] if not p.startswith('rt:'))].add(f'{where(m.start())} {name}')
        for clause in re.findall(r'^ *requires (?:\w+ )?\{ (.*) \}$', head, re.M):
            for fact in clause.split(' × '):
                facts[crate, fact.strip('() ')].append(f'{where(m.start())} {name}')
        if len(lines) > 2:
            shape = re.sub(r'\b(?!(?:let|mut|if|else|while|for|in|loop|match|return|break|as|Some|None|Ok|Err)\b)\w+\b', 'x', ' '.join(lines))
            shapes[len(params), re.sub(r'\bx(?:::x)+', 'x', shape)].append(f'{where(m.start())} {name}')

for places in shapes.values():
    if len(places) > 1:
        rows['2 functions alike but for names and numbers'] += places
for (crate, three), places in travel.items():
    if len(three) == 3 and len(places) > 2:
        rows['5 three parameters together, in three functions or more'].append(f'{crate}: {", ".join(three)}: {len(places)} functions')
for (crate, fact), places in facts.items():
    if len(places) > 2:
        rows['5 fact required by three functions or more'].append(f'{crate}: {fact}: {len(places)} functions')
for kind in ('Answers.antt', 'Invariants.antt'):
    files = [f for f in top.glob(f'crates/*/proofs/**/{kind}')]
    rows[f'8 lines of {kind}'] = [str(f.relative_to(top)) for f in files for _ in f.read_text(encoding='utf8').splitlines()]
rows['8 lines of laws in proofs/'] = [str(f.relative_to(top)) for f in top.glob('crates/*/proofs/*.antt') for _ in f.read_text(encoding='utf8').splitlines()]
for form in sorted(rows):
    print(f'{len(rows[form]):6}  {form}')
    if '--list' in sys.argv and not form.startswith('8'):
        for place in rows[form]:
            print(f'            {place}')
