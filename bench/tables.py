"""Makes tables from the output of bench and state: bench/results.tsv and bench/channels.tsv, and prints them.

A table has a header and rows. What a reader has to know about both is in bench/notes.txt: which processor, which
compilers, what is missing."""
from __future__ import annotations

import os
import platform
import re
import shutil
import subprocess
from collections.abc import Iterable, Iterator, Mapping, Sequence
from typing import Any

HERE = os.path.dirname(os.path.abspath(__file__))
OURS, WORDS = 'ours', 'ours, not packed'
REFERENCE, NATIVE = 'libgsm on integers, -O2', 'libgsm on integers, -O3 -march=native'
AVCODEC, HARD = 'libavcodec of Debian', 'squares and jumps'
NOT_SHIPPED = ('ours: not the archive that is shipped, which is for x86-64, but the same module compiled for this kind '
               'of processor')
RESULTS = ('direction', 'material', 'codec', 'frames a second', 'ratio to libgsm', 'bits right or not')
CHANNELS = ('direction', 'codec', 'channels', 'bytes of state for a channel', 'frames a second')


class Said:
    """The lines of bench and state; also a note on the material, and the reason for what is missing."""

    def __init__(self, text: str, rounds: str, material: str, missing: Mapping[str, str]) -> None:
        self.rounds, self.material, self.missing, self.reference = rounds, material, dict(missing), ''
        self.other: dict[tuple[str, str, int, str], tuple[int, int]] = {}
        self.best: dict[tuple[str, str, str], float] = {}
        self.turns: dict[tuple[str, str, int], float] = {}
        self.refused: dict[str, float] = {}
        self.state: dict[tuple[str, str], tuple[int, int]] = {}
        self.above: list[float] = []
        for kind, *words in (line.split('\t') for line in text.splitlines()):
            getattr(self, f'read_{kind}')(*words)

    def read_missing(self, name: str, reason: str) -> None:
        self.missing.setdefault(name, reason)

    def read_reference(self, name: str) -> None:
        self.reference = name

    def read_bits(self, direction: str, material: str, channels: str, name: str, other: str, frames: str) -> None:
        self.other[direction, material, int(channels), name] = int(other), int(frames)

    def read_best(self, direction: str, material: str, _: str, name: str, best: str, median: str) -> None:
        self.best[direction, material, name] = float(best)
        self.above.append(float(median) / float(best) - 1)

    def read_turns(self, direction: str, _: str, channels: str, name: str, best: str, __: str) -> None:
        self.turns[direction, name, int(channels)] = float(best)

    def read_refused(self, direction: str, took: str) -> None:
        self.refused[direction] = float(took)

    def read_state(self, direction: str, name: str, own: str, everything: str) -> None:
        self.state[direction, name] = int(own), int(everything)

    def right(self, direction: str, material: str, name: str) -> bool:
        return self.other[direction, material, 1, name][0] == 0

    def rival(self, direction: str) -> str | None:
        """The fastest peer, by the speech, of those whose bits are right on both materials. None: there is none."""
        times = {name: best for (way, material, name), best in self.best.items()
                 if (way, material) == (direction, 'speech') and name not in (OURS, WORDS)
                 and self.right(way, 'speech', name) and self.right(way, 'noise', name)}
        return min(times, key=lambda name: times[name]) if times else None


# ---- rows

def ours_first(keys: Iterable[Any], place: int) -> list[Any]:
    """The same keys, encode before decode, and ours before the others; place is the index of the name."""
    return sorted(keys, key=lambda key: (key[0] != 'encode', key[place] not in (OURS, WORDS)))


def result_rows(said: Said) -> Iterator[tuple[Any, ...]]:
    for direction, material in dict.fromkeys(key[:2] for key in said.best):
        reference = said.best.get((direction, material, REFERENCE))
        for key in ours_first((key for key in said.best if key[:2] == (direction, material)), 2):
            ratio = f'{reference / said.best[key]:.2f}' if reference else '-'
            yield *key, round(1e9 / said.best[key]), ratio, 'yes' if said.right(*key) else 'no'


def state_of(said: Said, direction: str, name: str) -> int | str:
    return said.state[direction, name][0] if (direction, name) in said.state else '-'


def channel_rows(said: Said) -> Iterator[tuple[Any, ...]]:
    for direction, name, channels in ours_first(said.turns, 1):
        took = said.turns[direction, name, channels]
        yield direction, name, channels, state_of(said, direction, name), round(1e9 / took)


# ---- notes

def answer(*words: str) -> str:
    try:
        return subprocess.run(words, stdout=subprocess.PIPE, stderr=subprocess.DEVNULL, text=True,
                              env={**os.environ, 'LC_ALL': 'C'}).stdout
    except OSError:
        return ''


def processor() -> str:
    named = re.search(r'^Model name:\s*(.+)$', answer('lscpu'), re.M)
    if not named and os.path.exists('/proc/cpuinfo'):
        with open('/proc/cpuinfo', encoding='utf-8') as file:
            named = re.search(r'^model name\s*:\s*(.+)$', file.read(), re.M)
    return f'{named.group(1) if named else "not named"} ({platform.machine()})'


def compilers() -> str:
    kit = os.environ.get('RATTLE_HOME') or os.path.dirname(os.path.dirname(os.path.realpath(shutil.which('rt') or '/')))
    clang = answer(os.path.join(kit, 'on', platform.machine(), 'toolchain', 'bin', 'clang'), '--version')
    named = re.search(r'clang version \S+', clang)
    gcc = answer('gcc', '--version').splitlines()[0]
    return f'{gcc} for libgsm; ' + (f'{named.group()} of the Rattle kit for ours' if named else 'no Rattle kit')


def ratios(said: Said) -> Iterator[str]:
    """Ours beside libgsm, and beside the fastest peer with the right bits."""
    for direction, material, name in said.best:
        if name != OURS:
            continue
        own, rival = said.best[direction, material, OURS], said.rival(direction)
        words = []
        if (direction, material, REFERENCE) in said.best:
            words.append(f'{said.best[direction, material, REFERENCE] / own:.2f} times as fast as {REFERENCE}')
        if rival:
            words.append(f'{said.best[direction, material, rival] / own:.2f} times as fast as {rival}, '
                         'the fastest peer with the right bits on both materials')
        yield f'ratio: {direction}, {material}: ours is ' + (', '.join(words) or 'alone')


def refusals(said: Said) -> Iterator[str]:
    calls = {direction: said.best[direction, 'speech', WORDS] for direction in said.refused}
    shares = [f'{direction} {took:.0f} ns, {100 * took / calls[direction]:.1f} % of a call that is done'
              for direction, took in said.refused.items()]
    if shares:
        yield ('refused: a call that refuses takes the state in, hands it back and does nothing else, which bounds '
               f'what the boundary adds to the inner call: {"; ".join(shares)}')


def hard_bits(said: Said) -> Iterator[str]:
    """Who has other bits on the material that is compared alone."""
    wrong = [f'{name} in {other} of {frames} frames ({direction})'
             for (direction, material, channels, name), (other, frames) in said.other.items()
             if other and (material, channels) == (HARD, 1)]
    yield f'bits: {HARD} at full scale are compared and not timed; other bits: ' + (', '.join(wrong) or 'none')


def common_notes(said: Said) -> Iterator[str]:
    above = 100 * sorted(said.above)[len(said.above) // 2]
    yield f'processor: {processor()}'
    yield f'compilers: {compilers()}'
    yield (f'time: of the processor, the best of {said.rounds} rounds, in each 1536 frames encoded or 3072 decoded, '
           f'all codecs in one process, turn by turn; the median round took {above:.1f} % more')
    if OURS not in said.missing and platform.machine() != 'x86_64':
        yield NOT_SHIPPED
    if said.missing:
        yield f'missing: {"; ".join(said.missing)}'


def result_notes(said: Said) -> Iterator[str]:
    yield from common_notes(said)
    yield f'material: {said.material}; decoded is what {said.reference} makes of it'
    yield ('frames: each encoder leaves 33 bytes a frame and each decoder begins with them, ours in a layout of its '
           'own, by encode and pack, unpack and decode; where it is not packed, 76 codewords')
    held = ' and of '.join(dict.fromkeys([said.reference] + [OURS] * (OURS not in said.missing)))
    yield f'bits: yes where every frame of this material is that of {held}; compared before anything was timed'
    yield from hard_bits(said)
    yield 'libgsm: -O2 has its assertions, as its makefile and Debian have them; -O3 -march=native has none'
    if AVCODEC not in said.missing:
        yield 'libavcodec: has a decoder alone'
    yield from ratios(said)
    yield from refusals(said)


def channel_notes(said: Said) -> Iterator[str]:
    yield from common_notes(said)
    yield ('channels: the speech is cut into as many parts; each channel has a state of its own, and a frame of each '
           'is taken in turn')
    yield 'state: the block that holds it, as it was asked of the allocator'
    for (direction, name), (own, everything) in said.state.items():
        if everything != own:
            yield f'state: {name} asks for {everything} bytes in all to {direction} the first frame of a channel'
    for (direction, material, channels, name), (other, frames) in said.other.items():
        if other and said.right(direction, material, name):
            yield (f'bits: with {channels} channels {name} has other bits in {other} of {frames} frames: '
                   f'{direction}, {material}')


# ---- files, and the same to read

def all_notes(said: Said) -> list[str]:
    """Every note, once."""
    return list(dict.fromkeys([*result_notes(said), *channel_notes(said)]))


def write(said: Said) -> None:
    for name, header, rows in (('results.tsv', RESULTS, result_rows), ('channels.tsv', CHANNELS, channel_rows)):
        with open(os.path.join(HERE, name), 'w', encoding='utf-8') as file:
            file.writelines('\t'.join(map(str, row)) + '\n' for row in (header, *rows(said)))
    with open(os.path.join(HERE, 'notes.txt'), 'w', encoding='utf-8') as file:
        file.writelines(f'{note}\n' for note in all_notes(said))


def aligned(header: Sequence[Any], rows: Iterable[Sequence[Any]]) -> None:
    """Prints a table, its numbers to the right."""
    cells = [[f'{cell:,}' if isinstance(cell, int) else str(cell) for cell in row] for row in (header, *rows)]
    columns = list(zip(*cells))
    widths = [max(map(len, column)) for column in columns]
    numbers = [all(re.fullmatch(r'[-+\d.,]+', cell) for cell in column[1:]) for column in columns]
    for row in cells:
        placed = (cell.rjust(wide) if number else cell.ljust(wide) for cell, wide, number in zip(row, widths, numbers))
        print('  '.join(placed).rstrip())
    print()


def side_by_side(said: Said) -> Iterator[tuple[Any, ...]]:
    """The channels again, a row for each codec; last, what a frame takes more with the most channels than with one."""
    counts = sorted({channels for *_, channels in said.turns})
    yield 'direction', 'codec', 'bytes of state', *(f'with {count}' for count in counts), f'{counts[-1]} take more, %'
    for direction, name in ours_first(dict.fromkeys(key[:2] for key in said.turns), 1):
        took = [said.turns[direction, name, count] for count in counts]
        more = f'{100 * (took[-1] / took[0] - 1):+.1f}'
        yield direction, name, state_of(said, direction, name), *(round(1e9 / each) for each in took), more


def show(said: Said) -> None:
    """All of it to read: the notes, why what is missing is, and the tables last."""
    print()
    for note in all_notes(said):
        if not note.startswith('missing:'):
            print(note)
    for name, reason in said.missing.items():
        print(f'missing: {name}: {reason}')
    print()
    aligned(RESULTS, result_rows(said))
    print('frames a second with 1 and more channels')
    header, *rows = side_by_side(said)
    aligned(header, rows)
    print('written: bench/results.tsv, bench/channels.tsv, bench/notes.txt, bench/results.svg')
