#!/usr/bin/env python3
"""Lists places in crates/*/src that are written in older forms, and counts them: `forms.py [FOLDER]`, `-q` for the counts alone."""
import collections
import glob
import re
import sys

quiet = '-q' in sys.argv
rest = [a for a in sys.argv[1:] if a != '-q']
top = rest[0] if rest else '.'
sources = {f: open(f).read() for f in sorted(glob.glob(top + '/crates/*/src/**/*.rt', recursive=True))}


def show(title, places):
    print(f'{len(places):4} {title}')
    if not quiet:
        for place in places:
            print('       ' + place)


def lines(pattern):
    found = []
    for f, text in sources.items():
        for i, line in enumerate(text.split('\n'), 1):
            if re.search(pattern, line) and not line.lstrip().startswith('//'):
                found.append(f'{f}:{i}: {line.strip()}')
    return found


def blocks(pattern):
    found = []
    for f, text in sources.items():
        for m in re.finditer(pattern, text, re.S):
            i = text.count('\n', 0, m.start()) + 1
            found.append(f'{f}:{i}: {m.group(0).split(chr(10))[0].strip()}')
    return found


def functions():
    for f, text in sources.items():
        for m in re.finditer(r'fn (\w+)(?:<[^>]*>)?\(([^{}]*?)\)', text, re.S):
            yield f, text.count('\n', 0, m.start()) + 1, m.group(1), m.group(2)


print('1. Option, Result and enums')
show('let .. else that returns None', blocks(r'let Some\([^;{]*?\)\s*=[^;{]*?else \{\s*return None;'))
show('enums of our own (which of them have the shape of an Option or a Result is read)', lines(r'^\s*(pub(\(crate\))? )?enum '))
show('arms of a match by number', lines(r'^\s+[0-9]+( if .*)? =>'))
show('flags', lines(r'let mut \w+ = (false|true);'))
show('functions that answer a number which says nothing', lines(r'fn \w+\(\) -> u8'))

print('2. Twins')
values = collections.defaultdict(list)
for f, text in sources.items():
    if '/tests/' in f:
        continue
    for m in re.finditer(r'const (\w+): [^=]*= ([0-9_]+);', text):
        values[m.group(2)].append(f'{f}: {m.group(1)} = {m.group(2)}')
show('constants with the value of another', [p for ps in values.values() if len(ps) > 1 for p in ps])
names = collections.defaultdict(list)
for f, i, name, _ in functions():
    if '/tests/' not in f:
        names[name].append(f'{f}:{i}: {name}')
show('functions with the name of another', [p for ps in names.values() if len(ps) > 1 for p in ps])

print('3. Loops')
show('for over a range, while, loop', lines(r'\bfor \w+ in .*\.\.|\bwhile |\bloop \{'))

print('4. Conversions, comparisons, printing')
show('casts to a narrower number', lines(r' as (u32|u8)\b'))
show('functions that convert', lines(r'fn \w*(_from|from_|_words|_refusal)\w*\('))
show('impls of comparison and printing', lines(r'impl.* (PartialEq|Eq|Ord|PartialOrd|Clone|Copy|Debug|Display)\b.* for '))

print('5. Parameters and facts together')
for a, b in (('directory: &', 'files: &'), ('ends: &', 'log: &'), ('bytes: &', 'at: usize'), ('target: Part', 'rewrite: Rewrite')):
    show(f'functions that take {a.split(":")[0]} with {b.split(":")[0]}', [f'{f}:{i}: {n}' for f, i, n, ps in functions() if a in ps and b in ps])
facts = collections.defaultdict(list)
for f, text in sources.items():
    for i, line in enumerate(text.split('\n'), 1):
        m = re.match(r'\s*requires \w*\s*\{ (.*) \}$', line)
        if m:
            facts[m.group(1)].append(f'{f}:{i}: {m.group(1)}')
show('requires that stand in three contracts or more', [p for ps in facts.values() if len(ps) > 2 for p in ps])

print('6. Buffers, parallel arrays')
show('elements two to a slot, by index', lines(r'\[(1 \+ )?2 \* \w+'))
show('elements by a counter of our own', lines(r'\[\w+\] = '))
show('vectors whose length a ghost field fixes', lines(r'ghost .*vec_len'))

print('7. Switches and tables')
show('function pointers, dyn, tables of functions', lines(r'\bdyn |: fn\('))
