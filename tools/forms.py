#!/usr/bin/env python3
"""Counts, in crates/*/src, the places where an older form stands, point by point as docs/DESIGN-PASS.md numbers them.

    tools/forms.py [--list] [FOLDER]

FOLDER is the top of a checkout, this one if none is named. With --list each place is named by file and line."""
import os
import re
import sys


def sources(top):
    crates = os.path.join(top, 'crates')
    for crate in sorted(os.listdir(crates)):
        for folder, _, names in sorted(os.walk(os.path.join(crates, crate, 'src'))):
            for name in sorted(names):
                if name.endswith('.rt'):
                    yield os.path.join(folder, name)


def code_of(path):
    """The text of a file, its comments, clauses and `ghost` lines blanked, at the lines where they stand."""
    text = open(path, encoding='utf-8').read()
    text = re.sub(r'//[^\n]*', '', text)
    text = re.sub(r'(?m)^ghost use [^;]*;', lambda m: '\n' * m.group().count('\n'), text)
    out, at = [], 0
    for m in re.finditer(r'(?m)^\s*(requires|ensures)\*?(\s+\w+)?\s*\{', text):
        if m.start() < at:
            continue
        depth, k = 1, m.end()
        while depth:
            depth += {'{': 1, '}': -1}.get(text[k], 0)
            k += 1
        out.append(text[at:m.start()] + '\n' * text[m.start():k].count('\n'))
        at = k
    return ''.join(out) + text[at:]


def body_after(text, at):
    """What stands between the braces that open next."""
    start = text.index('{', at) + 1
    depth, k = 1, start
    while depth:
        depth += {'{': 1, '}': -1}.get(text[k], 0)
        k += 1
    return text[start:k - 1]


FN = re.compile(r'\bfn (\w+)(<[^(]*>)?\s*\(([^()]*(?:\([^()]*\)[^()]*)*)\)\s*(?:->\s*([^{]+?))?\s*(?=[{;])', re.S)
STRUCT = re.compile(r'((?:#\[[^\]]*\]\s*)*)(?:pub )?(struct|enum) (\w+)[^{;(]*\{([^}]*)\}', re.S)


def places(top):
    texts = {path: code_of(path) for path in sources(top)}
    flats = set()
    for text in texts.values():
        for m in STRUCT.finditer(text):
            if m.group(2) == 'struct' and re.search(r'\brefusal: (Fault|Refusal)\b', m.group(4)):
                flats.add(m.group(3))
    for path, text in texts.items():
        def found(point, at):
            return point, os.path.relpath(path, top), text.count('\n', 0, at) + 1
        for m in STRUCT.finditer(text):
            derives, kind, name, fields = m.groups()
            at = m.start(3)
            if kind == 'struct' and re.search(r'\brefusal: (Fault|Refusal)\b', fields):
                yield found('1 a record with a refusal in it', at)
            if kind == 'enum' and re.search(r'\bRefused\(', fields):
                yield found('1 an enum with a refusal in it', at)
            if 'derive(Drop)' in derives and not re.search(r"&|Vec|String|Box|<", fields):
                yield found('4 a plain type that is not Copy', at)
        for m in re.finditer(r'(?m)^pub const REFUSED_', text):
            yield found('1 a number of refusal', m.start())
        for m in FN.finditer(text):
            name, _, params, result = m.groups()
            result = (result or '').strip()
            at = m.start(1)
            if result in ('Refusal', 'Fault', 'rules::Fault', 'rules::Refusal') or (result == 'u32' and 'refusal' in name):
                yield found('1 a result that is a refusal or none', at)
            elif result in flats:
                yield found('1 a result that has a refusal in it', at)
            if re.fullmatch(r'lesser|greater|lower|wide32|wide64|most', name):
                yield found('4 a library function by hand', at)
            for group in (('masks', 'deadlines', 'averages', 'worst'), ('limits', 'worst', 'bounds'), ('body', 'summaries', 'worst'), ('image', 'n', 'levels')):
                if all(re.search(r'\b%s: ' % p, params) for p in group):
                    yield found('5 ' + ', '.join(group) + ' as parameters', at)
            if re.search(r'\bout: &mut \[u8\]', params) and re.search(r'\bat: usize', params):
                yield found('6 a buffer with its length beside it', at)
        for m in re.finditer(r'\bwhile ([^{]+?)\s*\{', text):
            body = body_after(text, m.end() - 1)
            cond = m.group(1)
            names = re.findall(r'\b[a-z_]+\b', cond)
            if any(re.search(r'(?<![.\w])%s (\+=|-=) 1;' % re.escape(n), body) for n in names):
                yield found('3 a loop that counts an index by hand', m.start())


def main():
    args = sys.argv[1:]
    listing = '--list' in args
    args = [a for a in args if a != '--list']
    top = os.path.abspath(args[0] if args else os.path.join(os.path.dirname(__file__), '..'))
    counts, lines = {}, []
    for point, path, line in places(top):
        counts[point] = counts.get(point, 0) + 1
        lines.append(f'{point}: {path}:{line}')
    if listing:
        print('\n'.join(sorted(lines)))
    for point in sorted(counts):
        print(f'{counts[point]:4} {point}')


main()
