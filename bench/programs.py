"""Ten minutes of speech through our programs and through toast and untoast: what a user waits for. Called by bench.py.

Each program reads a file on standard input and writes to a file. Measured is processor time, user and system, from
start to end: the best of several rounds, the programs one after the other in each round."""
from __future__ import annotations

import os
import platform
import shutil
import subprocess
from collections.abc import Iterator

# the best time by direction and name; direction, name, words, input, output and the bytes that the output must have
Best = dict[tuple[str, str], float]
Planned = tuple[str, str, list[str], str, str, int | None]

HERE = os.path.dirname(os.path.abspath(__file__))
ROOT = os.path.dirname(HERE)
FRAMES, ROUNDS = 30000, 21
HEADER = ('direction', 'program', 'seconds of the processor', 'microseconds a frame', 'ratio to libgsm')
PEERS = {'encode': 'toast of Debian', 'decode': 'untoast of Debian'}


class Missing(Exception):
    """Why a program is missing, in words."""


def ours(name: str, build: str) -> str:
    """The path of one of our programs, for this processor."""
    if platform.machine() == 'x86_64':
        path = os.path.join(ROOT, 'build', 'bin', f'rpeltp-{name}')
        if not os.path.exists(path):
            raise Missing(f'build/bin/rpeltp-{name} is not there; make build/bin makes it')
        return path
    path = os.path.join(build, f'{name}-native')
    done = subprocess.run([os.path.join(HERE, 'native.sh'), '--program', name, path], stdin=subprocess.DEVNULL,
                          stdout=subprocess.PIPE, stderr=subprocess.STDOUT, text=True)
    if done.returncode != 0:
        raise Missing(done.stdout.strip() or f'native.sh ended with status {done.returncode}')
    return path


def peer(name: str) -> list[str]:
    """toast and untoast on 16-bit samples."""
    path = shutil.which(name)
    if not path:
        raise Missing(f'{name} is not installed (libgsm-tools)')
    return [path, '-l']


def took(words: list[str], given: str, answer: str) -> float:
    """The seconds of processor time that a program takes. It must end with status 0; its output goes to a file."""
    with open(given, 'rb') as source, open(answer, 'wb') as target:
        process = subprocess.Popen(words, stdin=source, stdout=target, stderr=subprocess.PIPE)
        assert process.stderr
        said = process.stderr.read()
        _, status, usage = os.wait4(process.pid, 0)
        process.returncode = os.waitstatus_to_exitcode(status)
        process.stderr.close()
    if status != 0 or said:
        raise Missing(f'{os.path.basename(words[0])} ended with status {status} and said {said.decode()!r}')
    return float(usage.ru_utime + usage.ru_stime)


def files(speech: bytes, build: str) -> tuple[str, str, str, str, str]:
    """The path of ten minutes of speech, which is written, and the paths of the outputs."""
    given = os.path.join(build, 'ten-minutes.raw')
    with open(given, 'wb') as file:
        file.write((speech * (320 * FRAMES // len(speech) + 1))[:320 * FRAMES])
    coded, toasted, decoded, untoasted = (os.path.join(build, f'ten-minutes.{end}')
                                          for end in ('cod', 'gsm', 'out', 'untoasted'))
    return given, coded, toasted, decoded, untoasted


def runs(speech: bytes, build: str) -> Iterator[Planned]:
    given, coded, toasted, decoded, untoasted = files(speech, build)
    yield 'encode', 'ours: encode', [ours('encode', build)], given, coded, 152 * FRAMES
    yield 'encode', PEERS['encode'], peer('toast'), given, toasted, 33 * FRAMES
    yield 'encode', 'ours: lister', [ours('lister', build)], given, decoded, None
    yield 'decode', 'ours: decode', [ours('decode', build)], coded, decoded, 320 * FRAMES
    yield 'decode', PEERS['decode'], peer('untoast'), toasted, untoasted, 320 * FRAMES


def measured(speech: bytes, build: str, rounds: str) -> Best:
    """The best time of each program."""
    planned = list(runs(speech, build))
    best: Best = {}
    for _ in range(min(int(rounds), ROUNDS)):
        for direction, name, words, given, answer, size in planned:
            seconds = took(words, given, answer)
            if size is not None and os.path.getsize(answer) != size:
                raise Missing(f'{name} writes {os.path.getsize(answer)} bytes; {size} are expected')
            best[direction, name] = min(seconds, best.get((direction, name), seconds))
    return best


def rows(best: Best) -> Iterator[tuple[str, ...]]:
    for (direction, name), seconds in best.items():
        ratio = best[direction, PEERS[direction]] / seconds
        yield direction, name, f'{seconds:.3f}', f'{1e6 * seconds / FRAMES:.2f}', f'{ratio:.2f}'


def write(best: Best) -> None:
    with open(os.path.join(HERE, 'programs.tsv'), 'w', encoding='utf-8') as file:
        file.writelines('\t'.join(row) + '\n' for row in (HEADER, *rows(best)))
