#!/usr/bin/env python3
"""Counts the places of each point of docs/DESIGN-PASS.md, by the text of src/ and proofs/.

    tools/design_places.py [--list] [FOLDER]

FOLDER is the top of a checkout (this one, if none is named). Of a commit, such a folder is made by
`git archive COMMIT crates | tar -x -C FOLDER`.
--list prints each place."""
from __future__ import annotations

import re
import sys
from collections import defaultdict
from pathlib import Path

Place = tuple[str, int, str]

KEYWORDS = set('if else for in let mut return match fn pub while as true false'.split())

FUNCTION = re.compile(r'^(?P<indent> *)(?:pub )?(?:extern "C" )?fn (?P<name>\w+)')
# a point's searches: what is counted, and the pattern of its lines
LINES: dict[str, list[tuple[str, str]]] = {
    '1': [
        ('a field that is a bool', r'^\s+(pub )?\w+: bool,'),
        ('a variant that says that nothing is there', r'^\s+(Absent|Together|None),'),
        ('a refusal as a number', r'^\s+(pub )?number: u(8|16),|fn refuse\b'
         r'|fn (length_refusal|pack|unpack|rpeltp_(un)?pack)\b.*-> u'),
        ('a bool that says whether a step could be done',
         r'fn (print\w*|end_row|end|written|readable|whole|turns?|spoken)\b.*-> bool|^\) -> bool'),
    ],
    '3': [
        ('while', r'^\s*while (?!let)'),
        ('for over numbers', r'^\s*for \w+ in [^{]*\.\.'),
    ],
    '4': [
        ('the lesser or the greater of two by hand', r'if (\w+) < (\w+) \{ (\1|\2) \} else \{ (\1|\2) \}'),
        ('limited to a range by hand',
         r'^\s+if z < -32768|^\s+if most < x|^\s+least <= z|^\s+0 <= z &&|^\s+40 <= lag'),
        ('a sign by hand',
         r'^fn (size|counted)\b|^pub fn (abs|place_of)\b'),
        ('bytes and words by hand', r'^fn (word|pattern|low|high)\(|^pub fn (long_word|low_word|l_add|l_sub|same)\b'),
        ('a conversion or a print that is a function',
         r'fn (ending_number|mark_number|answered|digits|width|decimal)\('),
    ],
    '6': [
        ('a buffer with an index beside it', r'\bat: usize, out: &mut \[u8\]|^\s+there: usize,$|there: usize, least'),
        ('a buffer of fixed length lent for a text', r'out: &mut \[u8; (64|1024)\]'),
        ('fields that are a row', r'^\s+(pub )?(first|v0|s0): '),
    ],
    '7': [
        ('a kind passed to say which step runs', r'fn \w+\(.*\b(list: List|table: Table)\b'),
    ],
}


def files(top: Path) -> list[Path]:
    """The sources, in order."""
    return sorted(top.glob('crates/*/src/**/*.rt'))


def name(top: Path, path: Path) -> str:
    """A file's name as it is printed."""
    return str(path.relative_to(top / 'crates'))


def matching(top: Path, pattern: str) -> list[Place]:
    """The lines that a pattern finds."""
    found = []
    for path in files(top):
        for number, line in enumerate(path.read_text().splitlines(), 1):
            if not line.lstrip().startswith('//') and re.search(pattern, line):
                found.append((name(top, path), number, line.strip()))
    return found


def functions(path: Path) -> list[tuple[str, int, list[str]]]:
    """A file's functions: the name, the line, and the lines up to the brace that ends it."""
    found = []
    lines = path.read_text().splitlines()
    for at, line in enumerate(lines):
        begun = FUNCTION.match(line)
        if begun:
            end = next((k for k in range(at, len(lines)) if lines[k] == begun['indent'] + '}'), at)
            found.append((begun['name'], at + 1, lines[at:end + 1]))
    return found


def body(lines: list[str]) -> str:
    """A function without its clauses and comments."""
    kept = []
    clause = False
    for line in lines:
        bare = line.strip()
        if bare.startswith(('requires', 'ensures')):
            clause = True
        if bare == '{':
            clause = False
        if not clause and not bare.startswith('//'):
            kept.append(bare)
    return ' '.join(kept)


def shape(text: str) -> str:
    """A function with a sign for each number and name, in the order of their first use."""
    seen: dict[str, str] = {}
    words = []
    for word in re.findall(r'\w+|[^\w\s]', text):
        if re.fullmatch(r'-?\d+\w*|[iu](8|16|32|64|size)', word):
            words.append('0')
        elif word in KEYWORDS:
            words.append(word)
        else:
            words.append(seen.setdefault(word, f'w{len(seen)}'))
    return ' '.join(words)


def twins(top: Path) -> list[Place]:
    """Functions of 20 signs or more that have the shape of another one; the first of each shape is not counted."""
    groups: dict[str, list[Place]] = defaultdict(list)
    for path in files(top):
        for title, line, lines in functions(path):
            form = shape(body(lines))
            if len(form.split()) >= 30:
                groups[form].append((name(top, path), line, title))
    return [place for group in groups.values() for place in group[1:]]


def facts(top: Path) -> list[Place]:
    """Facts of the clauses `requires` that stand in three functions or more of one crate."""
    counts: dict[tuple[str, str], list[Place]] = defaultdict(list)
    for path in files(top):
        crate = path.relative_to(top / 'crates').parts[0]
        for title, line, lines in functions(path):
            clauses = re.findall(r'requires(?: \w+)? \{(.*?)\}\s*(?=requires|ensures|\{|$)', ' '.join(lines[:30]))
            parts = {re.sub(r'[()]', '', part).strip() for clause in clauses for part in clause.split('×')}
            for part in parts:
                counts[crate, part].append((name(top, path), line, f'{title}: {part}'))
    return [places[0] for places in counts.values() if len(places) >= 3]


def proofs(top: Path) -> list[tuple[str, int]]:
    """What point 8 counts."""
    paths = sorted(top.glob('crates/*/proofs/**/*.antt'))
    texts = [path.read_text() for path in paths]
    alone = sum(len(re.findall(r'^[\w-]+ c = search rules$', text, re.M)) for text in texts)
    return [('files of proofs', len(paths)), ('lines of them', sum(text.count('\n') for text in texts)),
            ('answers that say only `search rules`', alone),
            ('chains of `.before`', sum(len(re.findall(r'(?:\.before){2,}', text)) for text in texts))]


def main(words: list[str]) -> int:
    """Prints the counts."""
    listed = '--list' in words
    rest = [word for word in words if word != '--list']
    top = Path(rest[0]) if rest else Path(__file__).resolve().parent.parent
    for point, searches in sorted([*LINES.items(), ('2', []), ('5', [])]):
        for what, pattern in searches:
            show(point, what, matching(top, pattern), listed)
        if point == '2':
            show(point, 'a function of the shape of another', twins(top), listed)
        if point == '5':
            show(point, 'a fact in the clauses of three functions of a crate', facts(top), listed)
    for what, count in proofs(top):
        print(f'8  {count:6}  {what}')
    return 0


def show(point: str, what: str, places: list[Place], listed: bool) -> None:
    """Prints a count, and the places where that is asked for."""
    print(f'{point}  {len(places):6}  {what}')
    if listed:
        for path, line, text in places:
            print(f'             {path}:{line}: {text}')


if __name__ == '__main__':
    sys.exit(main(sys.argv[1:]))
