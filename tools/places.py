#!/usr/bin/env python3
"""Counts, in crates/*/src, the places that docs/DESIGN-PASS.md speaks of, by point; `tools/places.py N [--list]` prints those of one point.

1a own enums of the shape of Option or Result: a variant says that there is nothing, or that it failed
1b numbers for kinds, outside of the table of refusals: constants that number tags, attributes, types, atoms or flags
2  twins: functions whose texts are the same once types of numbers, widths, numerals and their own names are taken out
3  loops that count an index by hand: a `while` whose body adds 1 to, or takes 1 from, a variable of its test
4  equality, copying and conversion by hand: a match that answers true or false for each variant of an enum without fields; a struct copied field by field
5  parameters that travel together: signatures with four or more of section, settings, vendors, sizes, rows, attributes, counts, endianness and row count
6  a buffer and its count side by side in a signature (`rows: &[u32], n: usize`), and parallel buffers of one list
7  an enum that only says which step to run or which record is asked: parameters of such a type that are matched
"""
import collections, glob, os, re, sys

os.chdir(os.path.join(os.path.dirname(os.path.abspath(__file__)), '..'))
FN = re.compile(r'(?m)^[ ]*(?:pub(?:\(crate\))? )?(?:extern "C" )?fn (\w+)')
ABSENT = {'Nothing', 'Short', 'Cut', 'Refused', 'Endless', 'Missing', 'Unread', 'Nested', 'Unknown', 'End'}
files = {p: open(p, encoding='utf8').read() for p in sorted(glob.glob('crates/*/src/**/*.rt', recursive=True))}


def bare(text):
    return re.sub(r'//[^\n]*', '', text)


def functions():
    for path, text in files.items():
        found = list(FN.finditer(text))
        for i, m in enumerate(found):
            end = found[i + 1].start() if i + 1 < len(found) else len(text)
            cut = re.search(r'(?m)^\}', text[m.start():end])
            yield path, m.group(1), bare(text[m.start():m.start() + cut.end() if cut else end])


def signature(text):
    """The parameters of a function's text."""
    i = text.index('(')
    depth, j = 0, i
    while True:
        depth += {'(': 1, ')': -1}.get(text[j], 0)
        if not depth:
            return text[i + 1:j]
        j += 1


def body(text):
    """What stands between the braces, without the clauses."""
    m = re.search(r'(?m)^[ ]*\{\s*$|(?<=[\w>)\]]) \{$', text)
    return text[m.start():] if m else ''


def enums():
    for path, text in files.items():
        for m in re.finditer(r'(?ms)^pub(?:\(crate\))? enum (\w+)(?:<[^>]*>)? \{\n(.*?)^\}', bare(text)):
            variants = re.findall(r'(?m)^    (\w+)(\(|,| \{)', m.group(2))
            yield path, m.group(1), variants


def point_1a():
    for path, name, variants in enums():
        names = {v for v, _ in variants}
        payload = any(k != ',' for v, k in variants if v not in ABSENT)
        if names & ABSENT and payload and name not in ('Unread', 'Unfilled', 'CountError', 'SectionError'):
            yield path, name
        elif names & {'Passed', 'Clear'}:
            yield path, name


def point_1b():
    for path, text in files.items():
        for m in re.finditer(r'(?m)^(?:pub )?const (\w+): (?:u8|u16|u32)\b', bare(text)):
            if not re.search(r'LIMIT|WIDTH|KEPT|BUILD|SIZE\b', m.group(1)):
                yield path, m.group(1)


def point_2():
    groups = collections.defaultdict(list)
    for path, name, text in functions():
        if '/examples/' in path:
            continue
        t = re.sub(r'(?m)^\s*(requires|ensures)[^\n]*(?:\n {8}[^\n]*)*', '', text)
        t = t.replace(name, 'F')
        t = re.sub(r'\b[ui](8|16|32|64|size)\b|\bRead\w+\b', 'T', t)
        t = re.sub(r'\b0x[0-9a-fA-F_]+\b|\b\d+\b', 'N', t)
        t = re.sub(r'\b([a-z_]+)\d+(_\w+)?\b', r'\1N\2', t)
        t = re.sub(r'\b[A-Z][A-Z0-9_]+\b', 'C', t)
        t = re.sub(r'\s+', ' ', t)
        if len(t) > 60:
            groups[t].append((path, name))
    for g in groups.values():
        if len(g) > 1:
            for path, name in g:
                yield path, name + ' = ' + ', '.join(n for p, n in g if (p, n) != (path, name))


def point_3():
    for path, name, text in functions():
        for m in re.finditer(r'\bwhile ([^{]*)\{', text):
            depth, j = 0, m.end() - 1
            while True:
                depth += {"{": 1, "}": -1}.get(text[j], 0)
                if not depth:
                    break
                j += 1
            inner = text[m.end():j]
            for v in re.findall(r'\b[a-z_]+\b', m.group(1)):
                if re.search(rf'\b{v} (?:\+=|-=) 1;', inner):
                    yield path, f'{name}: while {m.group(1).strip()}'
                    break


def point_4():
    for path, name, text in functions():
        b = body(text)
        if len(re.findall(r'\w+::\w+ => (?:true|false),', b)) > 1:
            yield path, name + ' (which variant)'
        elif len(re.findall(r'let (\w+) = \w+\.\1;', b)) > 2:
            yield path, name + ' (field by field)'


def point_5():
    for path, name, text in functions():
        sig = signature(text)
        if len(re.findall(r"(?:^|[\s(])(?:s: &|settings: S|vendors: &|sizes: &|rows: &|attrs: &|counts: C|e: E|n: u)", sig)) >= 4:
            yield path, name


def point_6():
    for path, name, text in functions():
        sig = re.sub(r'\s+', ' ', signature(text))
        if re.search(r"(?:rows|attrs|table|t): &[^,]*\[u32\], n: usize|values: &mut \[i32\], names: &mut \[u64\]|structures: &mut \[u64\], members: &mut", sig):
            yield path, name


def point_7():
    for path, name, text in functions():
        for m in re.finditer(r'\b(\w+): (Record|Stage|Shape|Wanted|Sought|Producer|FormKind|SubscriptFormat|Mode)\b', signature(text)):
            if re.search(rf'match {m.group(1)} \{{', text):
                yield path, f'{name}: match {m.group(1)}'


POINTS = {'1a': point_1a, '1b': point_1b, '2': point_2, '3': point_3, '4': point_4, '5': point_5, '6': point_6, '7': point_7}
if __name__ == '__main__':
    wanted = [a for a in sys.argv[1:] if a != '--list'] or list(POINTS)
    for point in wanted:
        found = list(POINTS[point]())
        print(f'{point}: {len(found)}')
        if '--list' in sys.argv:
            for path, what in found:
                print(f'    {path[7:]}: {what}')
