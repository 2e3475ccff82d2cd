#!/usr/bin/env python3
"""compare_tables.py: our numbers against the standard's, oracle/dwarf1_tables.tsv (class, hex, decimal, name, status, source; from binutils' dwarf.h).

The crate `standard` must have exactly the table's numbers of status 'standard', but for those that are reserved. The format's numbers, which are the
reader's, may differ: each difference is a line of oracle/differences.txt, and docs/DIFFERENCES.md has its reason. Without --print only what differs from
that is told, and the status is 1; with --print all is printed as differences.txt has it.
"""
import re, sys

TABLES, EXPECTED = 'oracle/dwarf1_tables.tsv', 'oracle/differences.txt'
# class of the tables, our file, the prefix that the standard's names have
CLASSES = [('tag', 'TagKind', 'TAG_'), ('attribute', 'AttributeKind', 'AT_'), ('fundamental_type', 'FundType', 'FT_'), ('form', 'FormKind', 'FORM_'),
           ('modifier', 'Modifier', 'MOD_'), ('location_atom', 'LocationOp', 'OP_'), ('subscript_format', 'SubscriptFormat', 'FMT_')]
# class of the tables, the file of `standard`, what names a number there: a list's name, or a pattern
STANDARD = [('tag', 'Numbers', 'tags'), ('attribute', 'Numbers', 'attributes'), ('fundamental_type', 'Numbers', 'fundamental_types'),
            ('form', 'Numbers', r'^form_number \w+ = (\d+)$'), ('modifier', 'Types', r'^modifier_byte [\w-]+ = (\d+)$'),
            ('location_atom', 'Locations', r'^written_atom e \(?\w+(?: n\))? = (\d+) ∷')]


def source(path):
    return open(f'crates/{path}.antt', encoding='utf8').read()


def ours(name):
    text = source(f'format/specs/{name}')
    found = {int(v, 16): n for n, v in re.findall(r'(?m)^(\w+) = (0x[0-9a-f]+)$', text)}
    found.update({int(v, 16): n for v, n in re.findall(r'(0x[0-9a-f]+) means (\w+)', text)})
    for block in re.findall(r'(?m)^also_known =\n((?:    .*\n)+)', text):
        found.update({int(v, 16): '' for v in re.findall(r'0x[0-9a-f]+', block)})
    return found


def theirs(kind):
    rows = [line.rstrip('\n').split('\t') for line in open(TABLES, encoding='utf8') if not line.startswith('#')]
    return {int(r[1], 16): (r[3], r[4]) for r in rows if r[0] == kind and r[3] != '(reserved)'}


def plain(name, prefix=''):
    # antt has the word `module` for itself
    return name.replace('module_tag', 'module').removeprefix(prefix).replace('_', '').lower()


def compared():
    for kind, file, prefix in CLASSES:
        a, b = ours(file), theirs(kind)
        yield f'{kind}: {len(a)} ours, {len(b)} in the tables, {len([n for n in a if n in b])} in both'
        for n in sorted(a):
            if n not in b:
                yield f'  only ours      {n:#06x} {a[n]}'
        for n in sorted(b):
            if n not in a:
                yield f'  only standard  {n:#06x} {b[n][0]} ({b[n][1]})'
        for n in sorted(a):
            if n in b and a[n] and plain(a[n]) != plain(b[n][0], prefix):
                yield f'  other name     {n:#06x} {a[n]} / {b[n][0]}'


def missing():
    for kind, file, where in STANDARD:
        text = source(f'standard/specs/{file}')
        block = re.search(rf'(?m)^{where} =\n((?:    .*\n)+)', text)
        a = {int(v, 16) for v in re.findall(r'0x[0-9a-f]+', block.group(1))} if block else {int(v) for v in re.findall(where, text, re.M)}
        b = {n for n, (name, status) in theirs(kind).items() if status == 'standard'}
        for n in sorted(a ^ b):
            yield f"{kind}: only {'the crate standard' if n in a else 'the table'} has {n:#06x}"


lines = list(compared())
if '--print' in sys.argv:
    print('\n'.join(lines))
    sys.exit(0)
expected = open(EXPECTED, encoding='utf8').read().splitlines()
bad = [f'new: {x}' for x in lines if x not in expected] + [f'gone: {x}' for x in expected if x not in lines] + list(missing())
for line in bad:
    print('tables: ' + line)
if not bad:
    print(f"tables: the standard's numbers are those of the table, and the format's differ in {sum(x.startswith('  ') for x in lines)} lines, as said")
sys.exit(1 if bad else 0)
