#!/usr/bin/env python3
"""What the program `test_operations` must print: the operations of clause 4.1 and A-law, computed by operations.py.

    python3 outside/compare_operations.py                  writes the text; crates/test_operations/stdout is made so
    python3 outside/compare_operations.py --compare FILE   compares it with FILE and says where the first difference is
    python3 outside/compare_operations.py --libgsm PATH    compares each value of 4.1 with libgsm's own functions; PATH
                                                           is libgsm.so, or `auto`. libgsm has no A-law

Status 1: a difference that has no known reason."""
import argparse
import ctypes
import ctypes.util
import sys
from collections.abc import Callable, Iterator, Sequence
from typing import Any

from operations import COUNTS, LEAST, LONGS, PAIRS, RUNS, SINGLES, WORDS, low

# an operation's name, its arguments, its value
Case = tuple[str, tuple[int, ...], int]


# ---- the text

def rows() -> Iterator[list[int | str]]:
    """The fields of each line."""
    yield ['words', *WORDS]
    yield ['longs', *LONGS]
    yield ['counts', *COUNTS]
    for name, firsts, seconds, pair in PAIRS:
        for a in firsts:
            yield [name, a, *(pair(a, b) for b in seconds)]
    for name, arguments, single in SINGLES:
        yield [name, *(single(a) for a in arguments)]
    for name, run, width, single in RUNS:
        for first in run[::width]:
            yield [name, first, *(single(a) for a in range(first, first + width))]


def text() -> str:
    return ''.join('\t'.join(map(str, row)) + '\n' for row in rows())


def first_other(want: Sequence[str], got: Sequence[str]) -> tuple[int, str, str]:
    """The first index at which two lists differ, and what each has there, which is '' past its end."""
    index = next((i for i, (w, g) in enumerate(zip(want, got)) if w != g), min(len(want), len(got)))
    return index, [*want, ''][index], [*got, ''][index]


def compare(path: str) -> int:
    with open(path, encoding='ascii', errors='replace', newline='') as file:
        got = file.read()
    if got == text():
        print(f'{path}: no difference, {sum(len(row) - 1 for row in rows())} numbers')
        return 0
    line, want_line, got_line = first_other(text().splitlines(True), got.splitlines(True))
    field, want_field, got_field = first_other(want_line.split('\t'), got_line.split('\t'))
    print(f'{path}: line {line + 1}, field {field + 1}: {want_field!r} is expected, {got_field!r} is in the file')
    return 1


# ---- libgsm

# libgsm's words are a C short and its long words a C long, which has 64 bits on most machines
WORD, LONG, INT = ctypes.c_short, ctypes.c_long, ctypes.c_int

# the function, the type of its result, the types of its arguments
LIBGSM: dict[str, tuple[Any, ...]] = {
    'add': ('gsm_add', WORD, WORD, WORD),
    'sub': ('gsm_sub', WORD, WORD, WORD),
    'mult': ('gsm_mult', WORD, WORD, WORD),
    'mult_r': ('gsm_mult_r', WORD, WORD, WORD),
    'div': ('gsm_div', WORD, WORD, WORD),
    'l_mult': ('gsm_L_mult', LONG, WORD, WORD),
    'l_add': ('gsm_L_add', LONG, LONG, LONG),
    'l_sub': ('gsm_L_sub', LONG, LONG, LONG),
    'shr': ('gsm_asr', WORD, WORD, INT),
    'shl': ('gsm_asl', WORD, WORD, INT),
    'l_shr': ('gsm_L_asr', LONG, LONG, INT),
    'l_shl': ('gsm_L_asl', LONG, LONG, INT),
    'abs': ('gsm_abs', WORD, WORD),
    'norm': ('gsm_norm', WORD, LONG),
}

# where libgsm ends the program by an assertion: in words, and as a test
REFUSED: dict[str, tuple[str, Callable[..., bool]]] = {
    'div': ('unless 0 <= num <= denum', lambda num, denum: not 0 <= int(num) <= int(denum)),
    'l_mult': ('for -32768 and -32768', lambda a, b: (a, b) == (LEAST, LEAST)),
    'norm': ('for 0', lambda x: (x,) == (0,)),
}


def functions(path: str) -> dict[str, Callable[..., int]]:
    """libgsm's function for each operation that it has."""
    found = ctypes.util.find_library('gsm') if path == 'auto' else path
    if not found:
        sys.exit('libgsm is not installed')
    library, theirs = ctypes.CDLL(found), {}
    for name, (symbol, result, *arguments) in LIBGSM.items():
        theirs[name] = getattr(library, symbol)
        theirs[name].restype, theirs[name].argtypes = result, arguments
    return theirs


def cases() -> Iterator[Case]:
    """Every value of 4.1."""
    for name, firsts, seconds, pair in PAIRS:
        for a in firsts:
            for b in seconds:
                yield name, (a, b), pair(a, b)
    for name, arguments, single in SINGLES:
        for a in arguments:
            yield name, (a,), single(a)


def refused(name: str, arguments: tuple[int, ...]) -> bool:
    return name in REFUSED and REFUSED[name][1](*arguments)


def wider(name: str, arguments: tuple[int, ...], want: int, got: int) -> bool:
    """Whether got is the left shift of a long word with no bit lost, as a C long of 64 bits has it, and want is its low
    32 bits."""
    if name not in ('l_shr', 'l_shl'):
        return False
    x, n = arguments
    n = -n if name == 'l_shr' else n
    return n > 0 and got == x << n and want == low(got, 32)


def libgsm(path: str) -> int:
    theirs = functions(path)
    asked = [case for case in cases() if case[0] in theirs and not refused(*case[:2])]
    answers = [(name, arguments, want, theirs[name](*arguments)) for name, arguments, want in asked]
    known = [answer for answer in answers if answer[2] != answer[3] and wider(*answer)]
    unknown = [answer for answer in answers if answer[2] != answer[3] and not wider(*answer)]
    print(f'{len(answers)} values compared with libgsm')
    print('not compared: long_word and low_word, for which libgsm has no function')
    for name, (when, _) in REFUSED.items():
        count = sum(refused(*case[:2]) for case in cases() if case[0] == name)
        print(f'not compared: {count} of {name}, which libgsm leaves undefined, by an assertion, {when}')
    print(f"{len(known)} differ because libgsm's long word is a C long, here of {8 * ctypes.sizeof(LONG)} bits: its "
          'left shift keeps the bits that pass bit 32; the low 32 bits are the same')
    print(f'{len(unknown)} differ for no known reason')
    for name, arguments, want, got in unknown:
        print(f'    {name}({", ".join(map(str, arguments))}): {want} here, {got} in libgsm')
    return 1 if unknown else 0


def main() -> int:
    parser = argparse.ArgumentParser(description=__doc__, formatter_class=argparse.RawDescriptionHelpFormatter)
    choice = parser.add_mutually_exclusive_group()
    choice.add_argument('--compare', metavar='FILE')
    choice.add_argument('--libgsm', metavar='PATH')
    arguments = parser.parse_args()
    if arguments.compare:
        return compare(arguments.compare)
    if arguments.libgsm:
        return libgsm(arguments.libgsm)
    sys.stdout.write(text())
    return 0


if __name__ == '__main__':
    sys.exit(main())
