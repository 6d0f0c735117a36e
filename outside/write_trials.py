#!/usr/bin/env python3
"""Frames as theorems: what crates/standard_trials states of encode and decode, each from the state before the frame.

    python3 outside/write_trials.py VECTORS               writes the files of crates/standard_trials/specs
    python3 outside/write_trials.py VECTORS --compare     compares them with what it would write; spaces and line ends
                                                          do not count

Samples and codewords are those of the vectors. The states between frames, the endings and the marks are those of the
second codec, which compare.py compares with the vectors, with libgsm and with spandsp. The frames of Made.antt show
what no vector does; their answers are those of the second codec alone. It is built in build/ from outside/second.
Status 1: a difference, or no second codec."""
from __future__ import annotations

import argparse
import os
import random
import re
import sys
from array import array
from collections.abc import Callable, Iterable, Iterator, Sequence
from typing import Any

import peers
import states
from differences import Difference
from vector_comparison import contents, frames
from signals import swell
from states import CODEWORDS, DECODE, ENCODE, SAMPLES, STATE, Coder, Decoder, random_coder, random_decoder, words

SPECS = os.path.join(peers.ROOT, 'crates', 'standard_trials', 'specs')


def any_frame(seed: int) -> tuple[Coder, list[int]]:
    """A random sound state and random samples."""
    dice = random.Random(seed)
    return random_coder(dice), words(dice, 160)


# frames of the vectors, counted from 0, and what each shows
ENCODED = [
    ('e10_levels', 0, 'samples of -1, 0 and 1, from home'),
    ('e32_speechlike', 10, 'a voice that sets in, quietly; low bits that do not count'),
    ('e13_lowbits', 34, 'loud; two lags of 40 are found with gain code 0'),
    ('e27_buzz40', 0, 'a buzz of period 40 from home: lag 40 by rule, then found'),
    ('e15_impulse', 3, 'an impulse of -32768; the analysis lattice clips'),
    ('e20_loudsilence', 7, 'silence after loud noise'),
    ('e20_loudsilence', 34, 'as loud as can be; the analysis lattice clips, and abs(-32768) in 4.2.11'),
    ('e29_rand16', 30, 'noise of the full range; the history and the weighting filter clip'),
    ('e17_sines', 112, 'stopped at 8'),
    ('e17_sines', 113, 'stopped at 6'),
    ('e17_sines', 127, 'stopped at 4'),
    ('e17_sines', 142, 'stopped at 3'),
]
DECODED = [
    ('dec/d01_random', 0, 'random codewords, from home'),
    ('dec/d01_random', 40, 'and further on'),
    ('dec/d02_stray', 0, 'stray bits beside the valid ones'),
    ('dec/d02_stray', 17, 'and further on'),
    ('dec/d04_badlags', 0, 'lags outside 40 to 120, from home'),
    ('dec/d04_badlags', 1, 'and with a lag remembered from the frame before'),
    ('dec/d04_badlags', 30, 'and further on'),
    ('dec/d08_zeroframe', 5, 'the zero frame once more'),
    ('enc/e29_rand16', 30, 'a loud frame of our encoder'),
    ('enc/e32_speechlike', 10, 'a quiet one'),
]
# frames packed and unpacked, and inputs listed
PACKED = [('e29_rand16', 30), ('e17_sines', 142), ('e32_speechlike', 10)]
LISTED = ['e02_empty', 'e03_onebyte', 'e04_319bytes', 'e05_641bytes']
# what no vector shows: a name, the state before the frame, its samples, and what it shows
MADE: list[tuple[str, Coder, list[int], str]] = [
    ('stopped_at_2', Coder(), swell(160, 2, 32767, 160, 2), 'stopped at 2'),
    ('stopped_at_5', Coder(), swell(160, 4, 32767, 160, 2), 'stopped at 5'),
    ('stopped_at_7', Coder(), swell(160, 4, 8000, 80, 4), 'stopped at 7'),
    ('zero_by_zero', Coder(), swell(160, 80, 20000, 160, 2), 'div(0, 0)'),
    ('wrapped', Coder(z1=-16384, L_z2=397), [32767] + [0] * 159,
     'from a sound state: at scale 4 a sample comes back as -32768'),
    ('any_state_20', *any_frame(20), 'any words from any sound state: clips in 4.2.3, at 26112 in 4.2.9.2, in 4.2.12'),
    ('any_state_44', *any_frame(44), 'clips in 4.2.3, in 4.2.12 and in the first doubling of 4.2.13'),
]
# the same for the decoder: seeds of a state and of its codewords
MADE_DECODED = [(1, 'any words from any sound state'), (2, 'and once more')]

# what the files import, where they use it
USES = [
    ('Rattle.std.specs.Prelude', ['◌≡◌', 'refl', '[]', '◌∷◌', 'pos', 'replicate']),
    ('Rattle.std.proofs.Math.Option', ['some']),
    ('Rattle.standard.specs.Tables', ['neg']),
    ('Rattle.standard.specs.Lpc', ['silent', 'stopped', 'complete']),
    ('Rattle.standard.specs.House', ['rule', 'found']),
    ('Rattle.standard.specs.Answers', ['encode', 'decode', 'pack', 'unpack']),
    ('Rattle.standard.specs.Listing', ['text', 'listing']),
    ('Rattle.standard.specs.Opened', ['opened']),
]


def whole(title: str, theorems: Iterable[str]) -> str:
    """A whole file: its title, what it uses, its theorems."""
    body = ''.join(theorems)
    named = set(re.sub('[();]', ' ', re.sub('"[^"]*"', ' ', re.sub('--.*', ' ', body))).split())
    uses = [(module, [name for name in names if name.strip('◌') in named]) for module, names in USES]
    lines = ['use %s.{%s}\n' % (module, ', '.join(names)) for module, names in uses if names]
    return f'-- {title} Written by outside/write_trials.py.\n' + ''.join(lines) + body


def number(x: int) -> str:
    return f'pos {x}' if x >= 0 else f'neg {-x}'


def items(xs: Iterable[int], name: Callable[[int], str] = number) -> str:
    return ' ∷ '.join([name(x) for x in xs] + ['[]'])


def state(carried: states.State) -> str:
    """A state as a record of the definitions: a decoder's dp is drp there."""
    names = {} if isinstance(carried, Coder) else {'dp': 'drp'}
    fields = [f'{names.get(name, name)} = {items(value) if isinstance(value, list) else number(value)}'
              for name, value in vars(carried).items()]
    return 'record { ' + '; '.join(fields) + ' }'


def ending_of(word: str) -> str:
    return f'some (stopped {word[4:]})' if word.startswith('stop') else f'some {word}'


def theorem(name: str, seen: str, call: str, answer: str) -> str:
    return f'\n-- {seen}\npub {name} : {call} ≡ {answer}\nunfolding opened\n{name} = refl\n'


def done(fields: str) -> str:
    return f'record {{ number = 0; {fields} }}'


# ---- the second codec, one call at a time: its modes that take whole files show no state

def answered(call: int, before: states.State, **passed: Any) -> tuple[states.State, list[int]]:
    """The state after a call from a state, and the words of the record that answers it."""
    # what is not passed is random words: an answer that left some of them unchanged would be noticed
    asked = states.record(random.Random(0), call, before, **passed)
    answer = array('h', peers.second('calls', asked.tobytes())).tolist()
    if len(answer) != states.WORDS or answer[0] != 0:
        raise Difference(f'the second codec refuses to {states.CALLS[call]}, or gives no whole record: {answer[:8]}')
    return states.from_words(call, answer[STATE:SAMPLES]), answer


def encode(before: states.State, samples: Sequence[int]) -> tuple[states.State, list[int], str, list[str]]:
    """The new state, the 76 codewords, how the recursion ended, the four marks."""
    after, answer = answered(ENCODE, before, samples=samples)
    marks = [states.MARK_NAMES[mark] for mark in answer[2:6]]
    return after, answer[CODEWORDS:CODEWORDS + 76], states.ENDING_NAMES[answer[1]], marks


def decode(before: states.State, codewords: Sequence[int]) -> tuple[states.State, list[int]]:
    """The new state, the 160 samples."""
    after, answer = answered(DECODE, before, codewords=codewords)
    return after, answer[SAMPLES:SAMPLES + 160]


def before(step: Callable[..., Any], home: states.State, given: Sequence[list[int]], number: int) -> states.State:
    """The state before a frame."""
    for frame in given[:number]:
        home = step(home, frame)[0]
    return home


# ---- the theorems

def encoded(name: str, seen: str, before: states.State, samples: Sequence[int], given: list[int] | None = None) -> str:
    after, codewords, ending, marks = encode(before, samples)
    if given not in (None, codewords):
        raise Difference(f'{name}: the second codec and the vector differ')
    call = f'encode ({state(before)}) ({items(samples)}) (replicate 76 (pos 0))'
    shown = ' ∷ '.join([f'some {mark}' for mark in marks] + ['[]'])
    answer = f'state = {state(after)}; ending = {ending_of(ending)}; marks = {shown}; codewords = {items(codewords)}'
    return theorem(name, seen, call, done(answer))


def decoded(name: str, seen: str, before: states.State, codewords: Sequence[int],
            given: list[int] | None = None) -> str:
    after, samples = decode(before, codewords)
    if given not in (None, samples):
        raise Difference(f'{name}: the second codec and the vector differ')
    call = f'decode ({state(before)}) ({items(codewords)}) (replicate 160 (pos 0))'
    return theorem(name, seen, call, done(f'state = {state(after)}; samples = {items(samples)}'))


def encoding(folder: str) -> Iterator[str]:
    for name, place, seen in ENCODED:
        raw, cod = frames(f'{folder}/enc/{name}.raw', 160), frames(f'{folder}/enc/{name}.cod', 76)
        home = before(encode, Coder(), raw, place)
        yield encoded(f'{name}_{place}', seen, home, raw[place], cod[place])


def made(folder: str) -> Iterator[str]:
    for name, home, samples, seen in MADE:
        yield encoded(name, seen, home, samples)
    for seed, seen in MADE_DECODED:
        dice = random.Random(seed)
        yield decoded(f'any_decoder_{seed}', seen, random_decoder(dice), words(dice, 76))


def decoding(folder: str) -> Iterator[str]:
    for name, place, seen in DECODED:
        cod, out = frames(f'{folder}/{name}.cod', 76), frames(f'{folder}/{name}.out', 160)
        short = name.split('/')[1]
        yield decoded(f'{short}_{place}', seen, before(decode, Decoder(), cod, place), cod[place], out[place])


def packing(folder: str) -> Iterator[str]:
    for name, place in PACKED:
        codes = items(frames(f'{folder}/enc/{name}.cod', 76)[place])
        bytes_ = items(contents(f'{folder}/enc/{name}.pack')[33 * place:33 * place + 33], str)
        short = f'{name}_{place}'
        yield theorem(f'{short}_packed', 'to bytes', f'pack ({codes}) (replicate 33 255)', done(f'bytes = {bytes_}'))
        unpacked = f'unpack ({bytes_}) (replicate 76 (pos 1))'
        yield theorem(f'{short}_unpacked', 'and back', unpacked, done(f'codewords = {codes}'))


def listing(folder: str) -> Iterator[str]:
    for name in LISTED:
        text = contents(f'{folder}/enc/{name}.lst').decode('ascii').replace('\t', '\\t').replace('\n', '\\n')
        raw = contents(f'{folder}/enc/{name}.raw')
        yield theorem(name, f'{len(raw)} bytes', f'listing ({items(raw, str)})', f'text "{text}"')


MAKERS: dict[str, tuple[str, Callable[[str], Iterator[str]]]] = {
    'Encoding': ('Frames of the vectors, encoded.', encoding),
    'Made': ('Frames for what no vector shows, encoded and decoded.', made),
    'Decoding': ('Frames of the vectors, decoded.', decoding),
    'Packing': ('Frames of the vectors, packed and unpacked.', packing),
    'Listing': ('Inputs of the vectors, listed.', listing),
}


def written(path: str, text: str) -> None:
    with open(path, 'w', encoding='utf-8') as file:
        file.write(text)


def compared(path: str, text: str) -> None:
    with open(path, encoding='utf-8') as file:
        if file.read().split() != text.split():
            name = os.path.basename(path)
            raise Difference(f'crates/standard_trials/specs/{name} is not what write_trials.py writes')


def main() -> int:
    parser = argparse.ArgumentParser(description=__doc__, formatter_class=argparse.RawDescriptionHelpFormatter)
    parser.add_argument('vectors')
    parser.add_argument('--compare', action='store_true')
    arguments = parser.parse_args()
    try:
        peers.build_second()
        for name, (title, maker) in MAKERS.items():
            path, text = os.path.join(SPECS, f'{name}.antt'), whole(title, maker(arguments.vectors))
            (compared if arguments.compare else written)(path, text)
    except (Difference, peers.Failed) as fault:
        print(fault)
        return 1
    if arguments.compare:
        print(f'crates/standard_trials: {len(ENCODED) + len(MADE)} frames encoded, {len(DECODED) + len(MADE_DECODED)} '
              f'decoded, {len(PACKED)} packed and unpacked, {len(LISTED)} inputs listed, as the vectors and the second '
              'codec have them')
    return 0


if __name__ == '__main__':
    sys.exit(main())
