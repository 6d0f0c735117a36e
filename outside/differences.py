"""Where the answers of two codecs differ, in words, and the input that shows it."""
from __future__ import annotations

import os
from array import array
from collections.abc import Mapping, Sequence
from typing import Any

from peers import BUILD
from signals import STARTS, Run

SUBFRAME = ['lag', 'gain', 'grid', 'amplitude'] + [f'pulse {i}' for i in range(1, 14)]
# what a codec answers for a frame: how many words, and as which type of an array
Kind = tuple[int, str]
CODEWORDS, SAMPLES, OCTETS = (76, 'H'), (160, 'h'), (160, 'B')


class Difference(Exception):
    """A difference, in words."""


def kept(name: str, given: bytes) -> str:
    """Writes an input to build/ and returns its path there."""
    with open(os.path.join(BUILD, name), 'wb') as file:
        file.write(given)
    return f'build/{name}'


def first_place(want: Sequence[Any], got: Sequence[Any]) -> int:
    """The first index at which two sequences differ, or the length of the shorter."""
    low, high = 0, min(len(want), len(got))
    # by halves: the sequences are long, and a comparison of slices is quick
    while low < high:
        middle = (low + high) // 2
        if want[low:middle + 1] == got[low:middle + 1]:
            low = middle + 1
        else:
            high = middle
    return low


def at(row: Sequence[Any], place: int) -> Any:
    """What a sequence has at an index, or the word 'nothing' past its end."""
    return row[place] if place < len(row) else 'nothing'


def codeword_name(place: int) -> str:
    """Which of the 76 codewords of a frame has this index."""
    if place < STARTS[0]:
        return f'LARc {place + 1}'
    return f'{SUBFRAME[(place - 8) % 17]} of sub-frame {(place - 8) // 17 + 1}'


def place_name(kind: Kind, place: int) -> str:
    return codeword_name(place) if kind == CODEWORDS else f'{"sample" if kind == SAMPLES else "octet"} {place}'


def kept_run(run: Run, frames: int) -> str:
    """Writes that many frames of a run to build/ and returns the path there."""
    ending = 'al' if run.words.typecode == 'B' else 'raw'
    return kept(f'differs-{run.size}.{ending}', run.words[:run.size * frames].tobytes())


def as_words(kind: Kind, answer: bytes) -> array[int]:
    return array('H', answer) if kind == CODEWORDS else array('h', answer) if kind == SAMPLES else array('B', answer)


def same_words(run: Run, seed: int, kind: Kind, answers: Mapping[str, bytes]) -> None:
    """Raises Difference unless all codecs answer a run with the same words, of one of the three kinds."""
    size, word = kind
    for codec, answer in answers.items():
        if len(answer) != array(word).itemsize * size * run.frames():
            file = kept_run(run, run.frames())
            raise Difference(f'{run.name}, seed {seed}: {codec} gives {len(answer)} bytes for {run.frames()} frames\n'
                             f'the input is {file}')
    rows = {codec: as_words(kind, answer) for codec, answer in answers.items()}
    first, *others = rows
    for codec in others:
        if answers[codec] == answers[first]:
            continue
        place = first_place(rows[first], rows[codec])
        frame = place // size
        values = ', '.join(f'{at(row, place)} by {name}' for name, row in rows.items())
        file = kept_run(run, frame + 1)
        raise Difference(f'{run.name}, seed {seed}: {codec} differs from {first} at frame {frame} ({run.part(frame)}), '
                         f'word {place % size} ({place_name(kind, place % size)}): {values}\n'
                         f'the input to the end of that frame is {file}')


def same_values(name: str, start: int, answers: Mapping[str, Sequence[int]]) -> None:
    """Raises Difference unless all codecs have the same numbers: the first is the answer to start, the second to
    start + 1, and so on."""
    wanted = next(iter(answers.values()))
    for row in answers.values():
        if row != wanted:
            place = first_place(wanted, row)
            values = ', '.join(f'{at(each, place)} by {codec}' for codec, each in answers.items())
            raise Difference(f'{name} {start + place}: {values}')


def same_lines(name: str, given: bytes, answers: Mapping[str, bytes]) -> None:
    """Raises Difference unless the listings of an input are the same bytes."""
    first, *others = answers
    for codec in others:
        if answers[codec] != answers[first]:
            want, got = answers[first].splitlines(True), answers[codec].splitlines(True)
            line = first_place(want, got)
            file = kept('differs-listed.raw', given)
            raise Difference(f'{name}: {codec} and {first} differ at line {line + 1}: {at(want, line)!r} by {first}, '
                             f'{at(got, line)!r} by {codec}\nthe input is {file}')


def same_bytes(name: str, want: tuple[str, bytes], got: tuple[str, bytes]) -> None:
    """Raises Difference unless a source and a codec, each with its name, have the same bytes."""
    (source, expected), (codec, answer) = want, got
    if expected != answer:
        place = first_place(expected, answer)
        raise Difference(f'{name}: {codec} differs from {source} at byte {place}: {at(expected, place)} in {source}, '
                         f'{at(answer, place)} by {codec}; {len(expected)} and {len(answer)} bytes')
