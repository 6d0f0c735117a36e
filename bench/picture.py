#!/usr/bin/env python3
"""Draws bench/results.svg from bench/results.tsv and bench/notes.txt: python3 bench/picture.py.

A bar for each row, as long as its frames a second; beside it the ratio to libgsm, and that number. One scale for each
direction, so that speech and noise compare."""
from __future__ import annotations

import os
from collections.abc import Iterator
from xml.sax.saxutils import escape

HERE = os.path.dirname(os.path.abspath(__file__))
TABLE, NOTES, PICTURE = (os.path.join(HERE, name) for name in ('results.tsv', 'notes.txt', 'results.svg'))
WIDTH, LEFT, LONGEST, BAR, STEP = 900, 290, 430, 18, 25
TITLE = 'GSM full-rate speech: how many times libgsm (integers, -O2), and frames a second'
FONT = 'font-family="DejaVu Sans, Verdana, Helvetica, Arial, sans-serif"'
INK, BOLD, PALE = 'fill="#1b1b1b"', 'fill="#1b1b1b" font-weight="bold"', 'fill="#5c5c5c"'
STYLE = {'ours': 'fill="#0b5394"', 'right': 'fill="#e3a33a"', 'other': 'fill="url(#hatched)" stroke="#7a7a7a"'}
LEGEND = (('ours', 'ours'), ('right', 'others, the right bits'), ('other', 'others, other bits'))
TOLD = ('processor', 'compilers', 'time', 'ours', 'missing', 'frames')
HATCH = ('<defs><pattern id="hatched" width="6" height="6" patternUnits="userSpaceOnUse" patternTransform="rotate(45)">'
         '<rect width="6" height="6" fill="#f2f2f2"/><rect width="2" height="6" fill="#9a9a9a"/></pattern></defs>')


# the rows of a table, by direction and material
Panels = dict[tuple[str, str], list[list[str]]]


def read() -> tuple[Panels, list[str]]:
    """The rows of the table by direction and material, and the notes."""
    panels: Panels = {}
    with open(TABLE, encoding='utf-8') as file:
        for line in file.read().splitlines()[1:]:
            direction, material, *row = line.split('\t')
            panels.setdefault((direction, material), []).append(row)
    with open(NOTES, encoding='utf-8') as file:
        return panels, file.read().splitlines()


def text(x: float, y: float, words: str, size: float = 13, style: str = INK) -> str:
    return f'<text x="{x:.0f}" y="{y:.0f}" font-size="{size}" {style}>{escape(words)}</text>'


def kind(codec: str, right: str) -> str:
    return 'ours' if codec.split(',')[0] == 'ours' else 'right' if right == 'yes' else 'other'


def bar(y: float, row: list[str], longest: int) -> Iterator[str]:
    codec, frames, ratio, right = row
    size, line = LONGEST * int(frames) / longest, y + BAR - 5
    yield text(LEFT - 10, line, codec, 13, f'{INK} text-anchor="end"')
    yield f'<rect x="{LEFT}" y="{y:.0f}" width="{size:.1f}" height="{BAR}" {STYLE[kind(codec, right)]}/>'
    if ratio != '-':
        yield text(LEFT + size + 8, line, f'{ratio} times', 13, BOLD)
    yield text(LEFT + size + 94, line, f'{int(frames):,}', 12, PALE)


def legend(y: float) -> Iterator[str]:
    x = LEFT
    for name, words in LEGEND:
        yield f'<rect x="{x}" y="{y - 12}" width="16" height="14" {STYLE[name]}/>'
        yield text(x + 22, y, words)
        x += 60 + 8 * len(words)


def wrapped(words: str, most: int = 130) -> list[str]:
    lines = ['']
    for word in words.split():
        if len(lines[-1]) + len(word) >= most:
            lines.append('')
        lines[-1] += f' {word}' if lines[-1] else word
    return lines


def drawing(panels: Panels, notes: list[str]) -> tuple[list[str], int]:
    """What is drawn, and how high it is."""
    y = 62
    drawn = [text(20, 34, TITLE, 17, BOLD), *legend(y)]
    for (direction, material), rows in panels.items():
        longest = max(int(row[1]) for (way, _), others in panels.items() if way == direction for row in others)
        y += 36
        drawn.append(text(20, y, f'{direction}, {material}', 15, BOLD))
        y += 10
        for row in rows:
            drawn += bar(y, row, longest)
            y += STEP
    y += 16
    for line in (line for note in notes if note.split(':')[0] in TOLD for line in wrapped(note)):
        drawn.append(text(20, y, line, 11.5, PALE))
        y += 16
    return drawn, y + 8


def draw() -> None:
    drawn, height = drawing(*read())
    size = f'width="{WIDTH}" height="{height}"'
    head = f'<svg xmlns="http://www.w3.org/2000/svg" {size} viewBox="0 0 {WIDTH} {height}" {FONT}>'
    with open(PICTURE, 'w', encoding='utf-8') as file:
        file.write('\n'.join([head, HATCH, f'<rect {size} fill="#ffffff"/>', *drawn, '</svg>']) + '\n')


if __name__ == '__main__':
    draw()
