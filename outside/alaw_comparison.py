"""A-law: all octets and all values by every codec that has a rule for them, the recording's listing, and frames encoded
from octets and decoded to octets. compare.py --alaw and --frames call it.

spandsp is the reference for G.711: it works on 16-bit samples, and its rules on all of them are those of request
W-204."""
from __future__ import annotations

import itertools
import os
from array import array
from collections.abc import Iterator

import peers
import signals
from differences import CODEWORDS, OCTETS, Difference, same_bytes, same_lines, same_values, same_words
from vector_comparison import contents

# what the program test_operations must print; its rows of expand and compress are made by rule
STORED_NAME = 'crates/test_operations/stdout'
STORED = os.path.join(peers.ROOT, STORED_NAME)


# ---- the rule

def stored(name: str, start: int, count: int) -> list[int]:
    """The values of an operation for count numbers from start on. A row has the operation's name, the first number of
    the row, and the values."""
    values: list[int] = []
    with open(STORED, encoding='ascii') as file:
        rows = [line.split('\t') for line in file if line.startswith(f'{name}\t')]
    for _, first, *row in rows:
        due = start + len(values)
        if int(first) != due:
            raise Difference(f'{STORED_NAME}: a row of {name} begins at {int(first)}, where {due} is next')
        values += map(int, row)
    if len(values) != count:
        raise Difference(f'{STORED_NAME} has {len(values)} values of {name}, which has {count}')
    return values


def numbers(samples: bytes) -> list[int]:
    return array('h', samples).tolist()


def codes() -> None:
    """All octets expanded; and the samples that ours makes of them compressed again."""
    octets = bytes(range(256))
    expanded = peers.ours('expand', octets)
    same_values('expand', 0, {'spandsp': numbers(peers.spandsp_expand(octets)),
                              'the second codec': numbers(peers.second('expand', octets)), 'ours': numbers(expanded),
                              STORED_NAME: [8 * value for value in stored('expand', 0, 256)]})
    same_values('compress after expand', 0, {'the octet': list(octets),
                                             'spandsp': list(peers.spandsp_compress(expanded)),
                                             'the second codec': list(peers.second('compress-samples', expanded))})
    print('A-law: 256 octets expanded by ours, the second codec, spandsp and the stored rows, and compressed again: '
          'no difference')


def values() -> None:
    """All values of 13 bits compressed, and all samples."""
    scale, samples = range(-4096, 4096), array('h', range(-32768, 32768)).tobytes()
    eightfold = array('h', [8 * value for value in scale]).tobytes()
    by_second = peers.second('compress', array('h', scale).tobytes())
    same_values('compress', scale[0], {'spandsp': list(peers.spandsp_compress(eightfold)),
                                       STORED_NAME: stored('compress', scale[0], len(scale)),
                                       'the second codec': list(by_second)})
    same_values('compress the sample', -32768, {'spandsp': list(peers.spandsp_compress(samples)),
                                                'the second codec': list(peers.second('compress-samples', samples))})
    print(f'A-law: {len(scale)} values of 13 bits compressed by the second codec, spandsp and the stored rows, and '
          '65536 samples by the first two: no difference')


# ---- the recording

def speech() -> bytes:
    """The recording as spandsp compresses it, which must be what the stored file has."""
    octets = peers.spandsp_compress(contents(signals.SPEECH))
    same_bytes('recordings/speech.al', ('the file', contents(signals.ALAW)), ('spandsp', octets))
    return octets


def listed() -> None:
    """The lister after expand."""
    octets = speech()
    listings = {'the second codec': peers.second('list', peers.second('expand', octets)),
                'ours': peers.ours('lister', peers.ours('expand', octets))}
    same_lines('the recording in A-law', octets, listings)
    print(f'A-law: expand, then lister: the recording, {len(octets)} octets, is listed as the second codec lists it')


def rules() -> None:
    codes()
    values()
    listed()


# ---- from home

def octet_runs(seed: int, frames: int, first: bool = True) -> Iterator[signals.Run]:
    """About that many frames of octets, half of them sounds that spandsp compresses. Signals that do not depend on the
    seed are in a first round only."""
    yield from signals.octets(seed, frames // 2, None if first else signals.CHANGING_OCTETS)
    sounds, recording = (signals.Run(f'{name} as A-law', 160, 'B') for name in ('sounds', 'speech'))
    for run in signals.sounds(seed, frames // 2, None if first else signals.CHANGING):
        sounds.add(run.name, peers.spandsp_compress(run.words.tobytes()))
    recording.add('speech', speech())
    yield from [sounds, recording] if first else [sounds]


def encoded(run: signals.Run, seed: int) -> bytes:
    """Compares all codecs on the octets of a run; the codewords.

    compare.turned_over is not needed here. spandsp differs on x86-64 where 4.2.4 changes the sign of a sample of 32760
    or more; from home, 4.2.1 to 4.2.3 make no more than 32256 of a value of A-law, but for some rounding."""
    octets = run.words.tobytes()
    answers = {codec: encode(octets) for codec, encode in peers.ALAW_ENCODERS.items()}
    same_words(run, seed, CODEWORDS, answers)
    return answers['ours']


def decoded(run: signals.Run, seed: int) -> bytes:
    """Compares all codecs on the codewords of a run; the octets."""
    codewords = run.words.tobytes()
    answers = {codec: decode(codewords) for codec, decode in peers.ALAW_DECODERS.items()}
    same_words(run, seed, OCTETS, answers)
    return answers['ours']


def report(what: str, run: signals.Run) -> None:
    print(f'{what}: {run.name}: {run.frames()} frames of {len(run.parts)} signals')


def from_home(seed: int, frames: int, first: bool = True) -> int:
    """Compares about that many frames each way, and also decodes what was encoded; how many frames each codec had."""
    coded, total = signals.Run('what was encoded from A-law', 76), 0
    given: set[int] = set()
    made: set[int] = set()
    for run in octet_runs(seed, frames, first):
        coded.add(run.name, array('h', encoded(run, seed)))
        given.update(run.words)
        total += run.frames()
        report('encoded from A-law', run)
    for run in itertools.chain(signals.coded(seed, frames), [coded]):
        made.update(decoded(run, seed))
        total += run.frames()
        report('decoded to A-law', run)
    # fewer frames are too few for all octets
    if frames >= 2000 and len(given) + len(made) != 512:
        raise Difference(f'A-law, seed {seed}: {len(given)} of 256 octets went in, and {len(made)} came out')
    return total
