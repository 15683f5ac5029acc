#!/usr/bin/env python3
"""Brings the repository's own names of definitions, lemmas, fields and constructors to today's spelling: run once, at the top, after port.py.

Words are in snake case. A dash stays where it joins the names of two definitions, as in `first-none`; elsewhere it becomes `_`. Types and
facts keep their capitals. Names that Rattle makes (goals in a proof file, paths behind a dot) stay, and so does each function of src/.
It goes over specs/, proofs/, the clauses of src/ and the must-fail edits. `respell.py --list` prints the table and writes nothing.
"""
import os
import re
import sys

TOKEN = re.compile(r'[^\s(){}\[\],.;"`⌜⌝]+')
DEF = re.compile(r"^(\s*)((?:(?:unfoldable|abbrev|pub|private)\s+)*)((?:record |data )?)([^\s(){}:,.]+)((?:\s+[^:]*)?)\s:(?:\s|$)")
WORDS = set('add sub mul suc zero nil cons append none some true false take drop map length insert set'.split())


def files(kinds):
    for folder, dirs, names in os.walk('crates'):
        dirs[:] = sorted(d for d in dirs if d != 'out')
        for f in sorted(names):
            if f.endswith(kinds):
                yield os.path.join(folder, f)


def code(line):
    """The line without its comment."""
    at = line.find('--')
    while at > 0 and not line[at - 1].isspace():
        at = line.find('--', at + 2)
    return (line, '') if at < 0 else (line[:at], line[at:])


def snake(word):
    return re.sub(r'(?<=[a-z0-9])([A-Z])', lambda m: '_' + m.group(1).lower(), word) if word[:1].islower() else word


def collect():
    own, specs, library, tokens = set(), set(), set(), set()
    for p in files(('.antt',)):
        by_hand = p.endswith('Proof.antt')
        for line in open(p, encoding='utf-8'):
            text, _ = code(line.rstrip('\n'))
            if text.startswith('use '):
                words = TOKEN.findall(text)
                if not re.match(r'use Rattle\.(?!std)', text):
                    library.update(words)
                continue
            tokens.update(TOKEN.findall(text))
            m = DEF.match(text)
            if m and not (by_hand and re.search(r' : (tie|goal)\.', text)):
                own.add(m.group(4))
                if '/specs/' in p and len(m.group(1)) <= 2:
                    specs.add(m.group(4))
            for m in re.finditer(r'let ([^\s(){}:,.=]+)', text):
                own.add(m.group(1))
            for m in re.finditer(r'λ ([^.]+)\.', text):
                own.update(TOKEN.findall(m.group(1)))
    return own - {'record', 'use', 'module', 'elim', 'let', 'in', 'rw'}, specs, library, tokens


def functions():
    found = set()
    for p in files(('.rt',)):
        found.update(re.findall(r'\bfn ([a-z_0-9]+)', open(p, encoding='utf-8').read()))
    return found


def table():
    own, specs, library, tokens = collect()
    plain = {n for n in library if '-' not in n}
    names = {snake(n) for n in specs if '-' not in n} | plain | WORDS
    proofs = {f.replace('_', '-') + '-spec': f + '_spec' for f in functions()}
    new = {}
    for n in sorted(own):
        if n in library:
            continue
        if n in proofs:
            new[n] = proofs[n]
            continue
        parts = [snake(p) for p in n.replace('′', "'").split('-')]
        if not all(parts):
            continue
        out = parts[0]
        for a, b in zip(parts, parts[1:]):
            out += ('-' if a in names and b in names else '_') + b
        if out != n:
            new[n] = out
    taken = (tokens | library) - set(new)
    clash = {n: t for n, t in new.items() if t in taken}
    seen = {}
    for n, t in new.items():
        seen.setdefault(t, []).append(n)
    twins = {t: ns for t, ns in seen.items() if len(ns) > 1}
    return new, clash, twins


def turn(text, new, camel_only, steps):
    def one(m):
        n = m.group(0)
        if m.start() and text[m.start() - 1] == '.' and n in steps:
            return steps[n]
        return new[n] if n in new and not (camel_only and '-' in n) else n
    return TOKEN.sub(one, text)


def main(argv):
    new, clash, twins = table()
    if '--list' in argv:
        for n, t in sorted(new.items()):
            print(n, t)
        print('clash', clash)
        print('twins', twins)
        return 0
    new |= OTHER
    steps = {f.replace('_', '-'): f for f in functions() if '_' in f}
    for p in files(('.antt', '.rt', '.edit')):
        old = open(p, encoding='utf-8').read()
        out = []
        for line in old.split('\n'):
            if p.endswith('.antt'):
                text, note = code(line)
                out.append(turn(text, new, False, steps) + turn(note, new, True, {}))
            else:
                out.append(turn(line, new, not (p.endswith('.edit') and '.antt' in old.split('\n')[0]), {}))
        text = '\n'.join(out)
        if text != old:
            open(p, 'w', encoding='utf-8').write(text)
    return 0


# where two names would fall together, the lemma gives way
OTHER = {
    'number-of': 'number_of_lem',
    'numbersOf': 'numbers_of',
    'numbers_of': 'numbers_of_lem',
    'at-end': 'end_at',
    'cell-by': 'cell_by_lem',
    'head-told': 'head_told_lem',
    'in-line': 'in_line_lem',
    'step-refused': 'step_refused_lem',
    'write-told': 'write_told_lem',
}

if __name__ == '__main__':
    raise SystemExit(main(sys.argv[1:]))
