#!/usr/bin/env python3
"""Brings the repository's own definitions and lemmas to snake case: `firstChar` and `first-char` become `first_char`.

usage: python3 tools/snake_case.py          at the top of the repository, once, right after port.py

A name is the repository's own if it is declared in specs/ or proofs/ of a crate. Types, facts and modules begin with a
capital and stay. Words of Rust's sources, strings, comments, and names that Rattle makes (goals, steps) stay too; in
Markdown only what stands in backticks is turned. It stops, with nothing written, where two names would fall together.
It is kept so that the renaming can be made again on the sources that it was made on.
"""
import pathlib
import re
import sys

# Names that port.py itself turned: pages and edits, which it leaves alone, still have the old spelling.
TURNED_BY_PORT = (
    'ahead-none all-past at-ones behind-more body-back body-closed body-end body-more bodyOf by-digits by-end by-first '
    'by-itself by-size by-wide by-zero bytesOf clear-behind closed-at count-next counted-step cut-step digit-low '
    'digit-value digits-more end-line end-low ends-by ends-on endsAt few-words fieldAt four-bytes frameOf front-ends '
    'goes-at goes-on in-order inner-cut is-some isNone isScalar lineAt lineOf nameOf nextOf no-char no-end no-header '
    'no-line none-left none-within numberOf one-line one-more or-same over-none pairOf place-read placeIn placeOf '
    'range-back read-back read-behind rest-some same-from same-self same-text seek-found seek-is seek-stop some-below '
    'start-is start-none startOf textOf too-long too-many up-to valueAt wide-is word-low wordAt wordOf words-append '
    'words-more wordsOf').split()

# Lemmas that would fall together with the function that they are about.
LEMMAS = {
    'by_first': 'by_first_lem',
    'ends-at': 'ends_at_lem',
    'in-range': 'in_range_lem',
    'is-none': 'is_none_lem',
}
# One of these has, elsewhere, the name of a field that stays.
LEMMAS_OF_A_FILE = {'crates/text/proofs/Placing.antt': {'no_line': 'no_line_lem'}}

DECLARED = re.compile(r'^\s*(?:abbrev |unfoldable )?(?:pub )?([a-z][\w\'-]*) (?:\([^)]*\) )*: ')
FIELD = re.compile(r'^  pub ([a-z][\w\'-]*) : ')
WORD = r"[A-Za-z_][\w'≢-]*"
TOKEN = re.compile(r'(\.?)(?<![\w\'≢-])(' + WORD + ')')


def snake(name):
    dashed = re.sub(r'(?<=[a-z0-9])([A-Z])', lambda m: '_' + m.group(1).lower(), name)
    return dashed.replace('-', '_')


def files(kind):
    return sorted(p for p in pathlib.Path('crates').glob(kind) if 'out' not in p.parts)


def declared():
    """The repository's own names, and those of them that are fields of records."""
    own, fields = set(), set()
    for path in files('*/specs/**/*.antt') + files('*/proofs/**/*.antt'):
        for line in path.read_text().splitlines():
            # The goals of a function are named by Rattle.
            if re.search(r' : (goal|given)\.', line):
                continue
            if m := DECLARED.match(line):
                own.add(m.group(1))
            if m := FIELD.match(line):
                own.add(m.group(1))
                fields.add(m.group(1))
    return own, fields


def turn_code(text, new, fields):
    def one(m):
        dot, name = m.group(1), m.group(2)
        if dot and name not in fields:
            return m.group(0)
        return dot + new.get(name, name)
    return TOKEN.sub(one, text)


def turn_source(text, comment, new, fields):
    """Turns what is neither a comment nor a string."""
    out = []
    for line in text.split('\n'):
        parts = re.split(r'("(?:[^"\\]|\\.)*")', line)
        done = False
        for i, part in enumerate(parts):
            if done or i % 2:
                out.append(part)
                continue
            at = part.find(comment)
            if at >= 0:
                out.append(turn_code(part[:at], new, fields) + part[at:])
                done = True
            else:
                out.append(turn_code(part, new, fields))
        out.append('\n')
    return ''.join(out)[:-1]


def turn_edit(text, new, fields):
    out, comment = [], '//'
    for line in text.split('\n'):
        if line.startswith('file: '):
            comment = '--' if line.endswith('.antt') else '//'
        if line.startswith(('old: ', 'new: ')):
            line = line[:5] + turn_source(line[5:], comment, new, fields)
        out.append(line)
    return '\n'.join(out)


def turn_page(text, new):
    return re.sub(r'`[^`\n]+`', lambda m: turn_code(m.group(0), new, set(new)), text)


def clashes(own, new):
    """Names that fall together: two of the repository's own, or one with a name that the same file imports."""
    found = []
    made = {}
    for name in sorted(own - {'no_line'}):
        made.setdefault(new.get(name, name), []).append(name)
    found += [f'{to}: {", ".join(names)}' for to, names in made.items() if len(names) > 1]
    for path in files('*/**/*.antt') + files('*/src/**/*.rt'):
        text = path.read_text()
        words = set(re.findall(WORD, text))
        imported = set()
        for m in re.finditer(r'use Rattle\.(?:std|core)[\w.]*\.\{([^}]*)\}', text):
            imported |= {w.strip() for w in m.group(1).split(',')}
        for name in words & set(new):
            if new[name] in imported:
                found.append(f'{path}: {name} and the imported {new[name]}')
    return found


def look(own, new):
    """What to read: a new name that is also a word of the sources, which might hide it in a clause."""
    words = {}
    for path in files('*/src/**/*.rt'):
        text = re.sub(r'//[^\n]*|"(?:[^"\\\n]|\\.)*"', '', path.read_text())
        text = re.sub(r'ghost use [^;]*;', '', text)
        for w in set(re.findall(WORD, text)):
            words.setdefault(w, set()).add(str(path))
    for name, to in sorted(new.items()):
        if to in words:
            print(f'look: {name} is {to} now, as in {", ".join(sorted(words[to]))}')


def main():
    own, fields = declared()
    new = {n: snake(n) for n in own if snake(n) != n} | LEMMAS
    found = clashes(own, new)
    if found:
        print('\n'.join(found), file=sys.stderr)
        raise SystemExit('names fall together; nothing was written')
    look(own, new)
    both = new | {n: snake(n) for n in TURNED_BY_PORT}
    for path in files('*/**/*.antt'):
        here = new | LEMMAS_OF_A_FILE.get(str(path), {})
        path.write_text(turn_source(path.read_text(), '--', here, fields))
    for path in files('*/src/**/*.rt'):
        path.write_text(turn_source(path.read_text(), '//', new, fields))
    for path in files('*/must-fail/*.edit'):
        path.write_text(turn_edit(path.read_text(), both, set(both)))
    for path in [pathlib.Path('README.md'), *sorted(pathlib.Path('docs').glob('**/*.md'))]:
        path.write_text(turn_page(path.read_text(), both))
    print(f'{len(new)} names turned')


main()
