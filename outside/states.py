"""The states that a codec carries, and single calls from any of them, as records for the programs `calls`: made by rule
and by seeded random numbers.

A record has 768 words:

    0 to 47       the head: at 0 the call, at 1 to 3 how many samples or octets, codewords and bytes are passed
    48 to 63      16 words that nothing uses
    64 to 303     240 words for the state
    304 to 471    168 samples, or as many octets, each in the low half of its word
    472 to 639    168 residual samples
    640 to 723    84 codewords
    724 to 763    40 bytes
    764 to 767    4 words that nothing uses

An answer has the same layout, with the refusal number at 0, the ending at 1, the marks from 2 to 5 and 0 in the rest of
the head."""
from __future__ import annotations

import itertools
from array import array
from collections.abc import Callable, Iterable, Iterator, Mapping, Sequence
from dataclasses import dataclass, field
from random import Random

from operations import mult_r, saturate
from peers import spandsp_compress
from signals import ENDS, IDLE, VALID, WIDTHS, noise, of_segments, random_frames, random_words, swell

# a record with its name
Named = tuple[str, 'array[int]']

ENCODE, DECODE, PACK, UNPACK, ENCODE_ALAW, DECODE_ALAW = 1, 2, 3, 4, 5, 6
CALLS = {ENCODE: 'encode', DECODE: 'decode', PACK: 'pack', UNPACK: 'unpack', ENCODE_ALAW: 'encode_alaw',
         DECODE_ALAW: 'decode_alaw'}
# numbers of no call, the last two with a call's number in the low byte; the name for these
OTHERS, NO_CALL = (0, 7, 99, -1, 256 + ENCODE, 256 + DECODE_ALAW), 'no call'
# the calls with A-law, and the call that each is once the octets are samples
LINEAR = {ENCODE_ALAW: ENCODE, DECODE_ALAW: DECODE}
# where the parts of a record begin, and how many words it has
HOUSE, STATE, SAMPLES, RESIDUAL, CODEWORDS, BYTES, UNUSED, WORDS = 48, 64, 304, 472, 640, 724, 764, 768
# the three buffers: their names, how many words a call takes, how many a record has room for
BUFFERS, PASSED, MOST = {1: 'samples', 2: 'codewords', 3: 'bytes'}, {1: 160, 2: 76, 3: 33}, {1: 168, 2: 84, 3: 40}
# which two of the three each call takes
TAKES = {ENCODE: (1, 2), DECODE: (1, 2), PACK: (2, 3), UNPACK: (2, 3), ENCODE_ALAW: (1, 2), DECODE_ALAW: (1, 2)}
# what each call writes where it is not refused: from which word on, and how many; encode's ending and marks: the head
WRITES: dict[int, tuple[tuple[int, int], ...]] = {
    ENCODE: ((1, 5), (STATE, 140), (CODEWORDS, 76)), DECODE: ((STATE, 138), (SAMPLES, 160)), PACK: ((BYTES, 33),),
    UNPACK: ((CODEWORDS, 76),)}
# house rules, 'Soundness': the bounds of z1, of L_z2 - 32768 z1, and of the remembered lag
Z1, EXCESS, LAG = (-16384, 16380), (-536740337, 536871409), (40, 120)
# what no run from home reaches; each refusal number with each call that gives it; endings and marks of an answer
CLIPS, ON_PURPOSE = ['pre-emphasis clipped', 'abs(-32768) in 4.2.4', '26112 clipped'], 'on purpose: '
DONE = [f'{name} 0' for name in CALLS.values()]
REFUSALS = ['encode 1', 'encode 2', 'encode 3', 'decode 1', 'decode 2', 'decode 3', 'pack 2', 'pack 4', 'pack 5',
            'unpack 2', 'unpack 4', 'unpack 6', 'encode_alaw 1', 'encode_alaw 2', 'encode_alaw 3', 'decode_alaw 1',
            'decode_alaw 2', 'decode_alaw 3', f'{NO_CALL} 255']
ENDING_NAMES = {1: 'silent', 2: 'complete', **{16 + n: f'stop{n}' for n in range(1, 9)}}
MARK_NAMES = {1: 'rule', 2: 'found'}


def linear(call: int) -> int:
    """The call that an A-law call is once its octets are samples; any other is itself."""
    return LINEAR.get(call, call)


# ---- states

def zeros(count: int) -> list[int]:
    """A field of a state that is that many zeros at home."""
    made: list[int] = field(default_factory=lambda: [0] * count)
    return made


@dataclass
class Coder:
    """What the encoder carries from frame to frame, at home. dp is oldest first: dp[120 + i] here is the standard's
    dp[i]."""
    z1: int = 0
    L_z2: int = 0
    mp: int = 0
    LARpp: list[int] = zeros(8)
    u: list[int] = zeros(8)
    dp: list[int] = zeros(120)


@dataclass
class Decoder:
    """What the decoder carries, at home. dp is the standard's drp, oldest first. v[8] is not carried, since it is
    written and never read."""
    dp: list[int] = zeros(120)
    nrp: int = 40
    LARpp: list[int] = zeros(8)
    v: list[int] = zeros(8)
    msr: int = 0


State = Coder | Decoder


def words(dice: Random, count: int) -> list[int]:
    """Random words, two in three of them an end of the range."""
    return [dice.choice((-32768, 32767, dice.randint(-32768, 32767))) for _ in range(count)]


def random_coder(dice: Random) -> Coder:
    """Any sound state."""
    z1 = dice.randint(*Z1)
    L_z2 = 32768 * z1 + dice.randint(*EXCESS)
    return Coder(z1, L_z2, words(dice, 1)[0], words(dice, 8), words(dice, 8), words(dice, 120))


def random_decoder(dice: Random) -> Decoder:
    """Any sound state."""
    return Decoder(words(dice, 120), dice.randint(*LAG), words(dice, 8), words(dice, 8), words(dice, 1)[0])


def any_state(dice: Random, call: int) -> State:
    return random_coder(dice) if linear(call) == ENCODE else random_decoder(dice)


def quiet(dice: Random, call: int, level: int) -> State:
    """A sound state with small values, as a run from home may have."""
    small = list(noise(dice, 137, level))
    if linear(call) == ENCODE:
        z1 = small[0] // 2
        return Coder(z1, 32768 * z1 + 100 * small[1], small[0], small[1:9], small[9:17], small[17:])
    return Decoder(small[17:], dice.randint(*LAG), small[1:9], small[9:17], small[0])


def as_words(state: State) -> list[int]:
    """A state as the first 140 of a record's words for it."""
    if isinstance(state, Coder):
        return [state.z1, state.L_z2, state.L_z2 >> 16, state.mp, *state.LARpp, *state.u, *state.dp]
    return [state.nrp, state.msr, *state.LARpp, *state.v, *state.dp, 4711, -4711]


def from_words(call: int, carried: Sequence[int]) -> State:
    """The state that a record for that call has, from its words for the state."""
    if linear(call) == ENCODE:
        L_z2 = carried[2] * 65536 + (carried[1] & 65535)
        return Coder(carried[0], L_z2, carried[3], list(carried[4:12]), list(carried[12:20]), list(carried[20:140]))
    return Decoder(list(carried[18:138]), carried[0], list(carried[2:10]), list(carried[10:18]), carried[1])


# ---- records

def record(dice: Random, call: int, state: State | None = None, samples: Sequence[int] | None = None,
           codewords: Sequence[int] | None = None, packed: Sequence[int] | None = None,
           passed: Mapping[int, int] | None = None) -> array[int]:
    """A record. What is not given is random words of the right width, and so is what the call must not read or write.
    passed: how many samples, codewords or bytes, where that is not the right length."""
    lengths = {**PASSED, **(passed or {})}
    filled = list(random_words(dice, WORDS))
    filled[0], filled[1:4] = call, [lengths[1], lengths[2], lengths[3]]
    filled[STATE:STATE + 140] = as_words(state or any_state(dice, call))
    if samples is not None:
        filled[SAMPLES:SAMPLES + len(samples)] = samples
    if call in LINEAR:
        # an octet is the low half of its word: the high halves are 0 in some records and random in the others
        high, others = dice.choice((0, 0xFF00)), random_words(dice, 168)
        filled[SAMPLES:RESIDUAL] = [x & 255 | y & high for x, y in zip(filled[SAMPLES:RESIDUAL], others)]
    coded = random_frames(dice, 2)[:84] if codewords is None else codewords
    filled[CODEWORDS:CODEWORDS + len(coded)] = coded
    filled[BYTES:UNUSED] = [x & 255 for x in filled[BYTES:UNUSED]]
    if packed is None:
        filled[BYTES + 32] &= 15
    else:
        filled[BYTES:BYTES + 33] = packed
    return array('H', [x & 65535 for x in filled])


def met_on_purpose(dice: Random) -> Iterator[Named]:
    """What no run from home reaches: the clip of pre-emphasis, abs(-32768) in 4.2.4, the clip of the sum with 26112."""
    for mp, first in ((32767, -32768), (-32768, 32767)):
        coder = Coder(mp=mp, LARpp=words(dice, 8), u=words(dice, 8), dp=words(dice, 120))
        yield f'{ON_PURPOSE}pre-emphasis from {mp}', record(dice, ENCODE, coder, [first, *noise(dice, 159, 3000)])
    for end in ENDS:
        coder, hum = Coder(LARpp=[end] * 8), [x + (20000 if end < 0 else 0) for x in noise(dice, 160, 50)]
        alternating = [-20000 if i % 2 else 20000 for i in range(160)]
        yield f'{ON_PURPOSE}ratios of {end}', record(dice, ENCODE, coder, hum if end < 0 else alternating)
        coded = random_frames(dice, 1)
        coded[:8] = VALID[:8] if end > 0 else [0] * 8
        decoder = Decoder(LARpp=[end] * 8)
        yield f'{ON_PURPOSE}ratios of {end} to decode with', record(dice, DECODE, decoder, codewords=coded)


def around(bounds: tuple[int, int]) -> tuple[int, int, int, int]:
    """Just outside and just inside each of two bounds."""
    low, high = bounds
    return low - 1, low, high, high + 1


def coders_at_the_edges(dice: Random) -> Iterator[Coder]:
    """States with z1 and L_z2 at and just outside their bounds."""
    for z1 in (-32768, *around(Z1), 32767):
        near = [saturate(32768 * z1 + excess, 32) for excess in (*around(EXCESS), 0)]
        for L_z2 in [*near, -2147483648, 2147483647, 0]:
            state = random_coder(dice)
            state.z1, state.L_z2 = z1, L_z2
            yield state


def edges_of_soundness(dice: Random) -> Iterator[Named]:
    for call in (ENCODE, ENCODE_ALAW):
        for coder in coders_at_the_edges(dice):
            yield f'{CALLS[call]}, z1 {coder.z1}, L_z2 {coder.L_z2}', record(dice, call, coder)
    for call in (DECODE, DECODE_ALAW):
        for lag in (-32768, -1, 0, *around(LAG), 127, 168, 32767):
            decoder = random_decoder(dice)
            decoder.nrp = lag
            yield f'{CALLS[call]}, a remembered lag of {lag}', record(dice, call, decoder)


def unsound(dice: Random, call: int) -> State:
    state = any_state(dice, call)
    if isinstance(state, Coder):
        state.z1 = dice.choice((-16385, 16381))
    else:
        state.nrp = dice.choice((39, 121))
    return state


def all_refused(dice: Random, call: int, passed: Mapping[int, int]) -> array[int]:
    return record(dice, call, unsound(dice, call), codewords=words(dice, 84), packed=[255] * 33, passed=passed)


def wrong_lengths(dice: Random) -> Iterator[Named]:
    """Each wrong length alone, two at once, and together with what is refused by a higher number."""
    for call in CALLS:
        for what in PASSED:
            for length in (0, PASSED[what] - 1, PASSED[what] + 1, MOST[what]):
                name = f'{CALLS[call]} with {length} {BUFFERS[what]}'
                yield name, record(dice, call, passed={what: length})
                yield name + ', all else refused too', all_refused(dice, call, {what: length})
        passed = {what: PASSED[what] - 1 for what in TAKES[call]}
        yield f'{CALLS[call]} with both lengths wrong', record(dice, call, passed=passed)
        yield f'{CALLS[call]}, all but the lengths refused', all_refused(dice, call, {})


def no_calls(dice: Random) -> Iterator[Named]:
    """Numbers of no call: they are refused before anything else."""
    for call in OTHERS:
        yield f'call {call}', record(dice, call)
        yield f'call {call}, all else refused too', all_refused(dice, call, {what: PASSED[what] - 1 for what in PASSED})


def wide_and_spare(dice: Random) -> Iterator[Named]:
    """Codewords that are too wide for their field, and spare bits that are set."""
    for index, width in enumerate(WIDTHS):
        for value in {1 << width, 32768, -1, VALID[index]}:
            coded = random_frames(dice, 1)
            coded[index] = value
            yield f'pack with codeword {index} at {value}', record(dice, PACK, codewords=coded)
    for top in range(16):
        packed = list(dice.randbytes(33))
        packed[32] = packed[32] & 15 | top << 4
        yield f'unpack with spare bits {top}', record(dice, UNPACK, packed=packed)


def homes(dice: Random) -> Iterator[Named]:
    yield 'home, silence', record(dice, ENCODE, Coder(), [0] * 160)
    yield 'home, any words', record(dice, ENCODE, Coder())
    yield 'home, any frame', record(dice, DECODE, Decoder())
    yield 'home, the idle line', record(dice, ENCODE_ALAW, Coder(), [IDLE] * 160)
    yield 'the idle line as silence', record(dice, ENCODE_ALAW, Coder(z1=4), [IDLE] * 160)
    yield 'home, any octets', record(dice, ENCODE_ALAW, Coder())
    yield 'home, any frame to octets', record(dice, DECODE_ALAW, Decoder())
    # from this state the sign of a sample changes with scale 4
    yield 'a sample turned over', record(dice, ENCODE, Coder(z1=-16384, L_z2=397), [32767] + [0] * 159)


def stopping(dice: Random) -> Iterator[Named]:
    """Swelling tones, from home: in most of them the recursion stops."""
    for period in (2, 2.105, 2.667, 4, 4.2, 8, 80, 160, 320):
        for level, length, power in itertools.product((8000, 20000, 32767), (80, 160), (2, 4)):
            tone = swell(160, period, level, length, power)
            name = f'home, a swelling tone of period {period}, {level}, {length}, {power}'
            yield name, record(dice, ENCODE, Coder(), tone)
            yield f'{name}, as A-law', record(dice, ENCODE_ALAW, Coder(), spandsp_compress(array('h', tone).tobytes()))


FIXED: tuple[Callable[[Random], Iterator[Named]], ...] = (
    met_on_purpose, edges_of_soundness, wrong_lengths, no_calls, wide_and_spare, homes, stopping)


def samples_by_chance(dice: Random, call: int, level: int) -> Sequence[int]:
    """Noise, or octets of the lower segments; sometimes any words."""
    if dice.random() < 0.3:
        return words(dice, 160)
    return of_segments(dice, 160, range(dice.randint(1, 8))) if call == ENCODE_ALAW else noise(dice, 160, level)


def by_chance(dice: Random) -> Named:
    """One call, mostly from a sound state and not refused."""
    call = dice.choices(list(CALLS), (10, 8, 1, 1, 5, 4))[0]
    level = 2 ** dice.randint(0, 15) - 1
    samples = samples_by_chance(dice, call, level)
    state = quiet(dice, call, level) if dice.random() < 0.4 else None
    coded = words(dice, 84) if linear(call) == DECODE and dice.random() < 0.3 else None
    return f'{CALLS[call]} by chance', record(dice, call, state, samples, coded)


def records(seed: int, count: int) -> list[Named]:
    """At least that many records, with the name of each."""
    dice = Random(f'{seed} calls')
    made = [named for make in FIXED for named in make(dice)]
    while len(made) < count:
        made.append(by_chance(dice))
    return made


# ---- what an answer shows

def with_its_own(given: array[int], answer: array[int]) -> array[int]:
    """The record that was given, with the words that its call may write taken from the answer. The answer must equal
    it."""
    call, expected = given[0], array('H', given)
    expected[:HOUSE] = array('H', [answer[0]] + [0] * (HOUSE - 1))
    if call == DECODE_ALAW:
        expected[SAMPLES:RESIDUAL] = array('H', [x & 255 for x in given[SAMPLES:RESIDUAL]])
    for start, count in WRITES.get(linear(call), ()) if answer[0] == 0 else ():
        expected[start:start + count] = answer[start:start + count]
    return expected


def signed(values: Iterable[int]) -> list[int]:
    return [x - 65536 if x > 32767 else x for x in values]


def pre_emphasised(samples: Iterable[int], z1: int, L_z2: int, mp: int) -> Iterator[int]:
    """4.2.1 to 4.2.3 on integers: each s before it is clipped."""
    for sample in samples:
        so = (sample >> 3) * 4
        L_z2, z1 = (so - z1) * 32768 + (L_z2 >> 15) * 32735 + mult_r(L_z2 & 32767, 32735), so
        sof = L_z2 + 16384 >> 15
        yield sof + mult_r(mp, -28180)
        mp = sof


def clips_met(given: array[int], answer: array[int]) -> set[str]:
    """Which of the three that no run from home reaches a call reached. It is computed here: 4.2.3 from the samples, and
    4.2.9.1 from the ratios before and after."""
    found, place = set(), slice(STATE, SAMPLES)
    was, now = from_words(given[0], signed(given[place])), from_words(given[0], signed(answer[place]))
    if isinstance(was, Coder) and given[0] == ENCODE:
        s = list(pre_emphasised(signed(given[SAMPLES:SAMPLES + 160]), was.z1, was.L_z2, was.mp))
        if min(s) < -32768 or max(s) > 32767:
            found.add(CLIPS[0])
        if min(s) <= -32768:
            found.add(CLIPS[1])
    for before, after in zip(was.LARpp, now.LARpp):
        first, last = (before >> 2) + (after >> 2) + (before >> 1), (before >> 2) + (after >> 2) + (after >> 1)
        stretches = first, (before >> 1) + (after >> 1), last
        if any((abs(ratio) >> 2) + 26112 > 32767 for ratio in stretches):
            found.add(CLIPS[2])
    return found
