#!/usr/bin/env python3
"""Compares our programs, and our calls from C and from Rust, with the second codec, libgsm on integers and spandsp.

    python3 outside/compare.py --frames N --seed S       N frames each way, N / 10 in A-law, and N / 5 single calls from
                                                         any state
    python3 outside/compare.py --alaw                    all octets of A-law, all values, and the recording's listing
    python3 outside/compare.py --vectors DIR             every vector in DIR: enc/*.raw, dec/*.cod and their answers
    python3 outside/compare.py --sequences               the published sequences, in the folder RPELTP_SEQUENCES
    python3 outside/compare.py --programs                tests of the programs: pieces, what cannot be read or written
    python3 outside/compare.py --limit                   the lister at 1,000,000 frames
    python3 outside/compare.py --soak SECONDS --seed S   the first again and again, with a new seed in each round, and
                                                         both ends back to back; recordings too, if there are any

Our programs are crates/NAME/out/NAME. The programs in C and in Rust are in build/: outside/check_boundary.py builds
them. The second codec is built from outside/second. Status 1: a difference, or a codec that is missing."""
from __future__ import annotations

import argparse
import collections
import itertools
import os
import random
import subprocess
import sys
import time
import wave
from array import array
from collections.abc import Iterable, Iterator, Mapping, Sequence
from typing import NoReturn

import alaw_comparison
import build_libgsm
import peers
import program_tests
import signals
import states
import vector_comparison
from differences import CODEWORDS, SAMPLES, Difference, first_place, kept, same_lines, same_words

Met = collections.Counter[str]

ENDINGS = ['silent', 'complete'] + [f'stop{n}' for n in range(1, 9)]
MARKS = list(states.MARK_NAMES.values())
# a lag of 40 that was found, though its gain code is 0 (house rules, 'Marks')
FORTY = 'found 40 0'
MARKED = MARKS + [FORTY]
# what every run has to reach: stop1 is never reached
MET = [name for name in ENDINGS + MARKED if name != 'stop1']
# what the single calls that encode A-law have to reach: in one frame from home no tone stops the recursion after 6
ALAW_MET = [f'A-law {name}' for name in MET if name not in ('stop7', 'stop8')]


def counts(counter: Mapping[str, int], names: Iterable[str]) -> str:
    return ', '.join(f'{name} {counter[name]}' for name in names if counter[name])


# ---- from home

def lines_with(fields: str, listing: bytes) -> int:
    """How many lines of a listing have these fields, beside each other."""
    return listing.count('\t{}\t'.format(fields.replace(' ', '\t')).encode())


def encoded(run: signals.Run, seed: int) -> tuple[bytes, Met, int]:
    """Compares all codecs on the samples of a run; the codewords, what was reached, and how many frames of spandsp were
    compared."""
    samples = run.words.tobytes()
    answers = {codec: encode(samples) for codec, encode in peers.ENCODERS.items()}
    turned = turned_over(run.words, answers['spandsp'], answers['libgsm'])
    coded = answers['libgsm']
    if turned is not None:
        # from here on spandsp has another state
        answers['spandsp'] = answers['spandsp'][:152 * turned] + coded[152 * turned:]
    same_words(run, seed, CODEWORDS, answers)
    listings = {'the second codec': peers.second('list', samples), 'ours': peers.ours('lister', samples)}
    same_lines(f'{run.name}, seed {seed}', samples, listings)
    met = collections.Counter({name: lines_with(name, listings['ours']) for name in ENDINGS + MARKED})
    frames = run.frames()
    if sum(met[ending] for ending in ENDINGS) != frames or sum(met[mark] for mark in MARKS) != 4 * frames:
        raise Difference(f'{run.name}: the listing does not have one ending for each frame and one mark for each '
                         'sub-frame')
    return coded, met, frames if turned is None else turned


def turned_over(samples: array[int], theirs: bytes, others: bytes) -> int | None:
    """The first frame at which spandsp differs from libgsm, if 4.2.4 changes the sign of a sample there; else None. On
    x86-64 spandsp scales by a sum that saturates, so that a sample of 32760 or more comes back as 32752 and not as
    -32768."""
    if theirs == others:
        return None
    frame = first_place(array('H', others), array('H', theirs)) // 76
    emphasised = states.pre_emphasised(samples[:160 * (frame + 1)], 0, 0, 0)
    return frame if max(list(emphasised)[160 * frame:]) >= 32760 else None


def decoded(run: signals.Run, seed: int) -> int:
    """Compares all codecs on the codewords of a run; how many lags outside 40 to 120 the codewords have."""
    codewords = run.words.tobytes()
    same_words(run, seed, SAMPLES, {codec: decode(codewords) for codec, decode in peers.DECODERS.items()})
    valid = peers.valid_bits(codewords)
    return sum(not 40 <= lag <= 120 for start in signals.STARTS for lag in valid[start::76])


def from_home(seed: int, frames: int, kinds: signals.Kinds | None = None,
              recordings: Iterable[signals.Run] = ()) -> int:
    """Compares that many frames each way, and also decodes what was encoded; how many frames each codec had."""
    coded, total, all_met = signals.Run('what was encoded', 76), 0, Met()
    for run in itertools.chain(signals.sounds(seed, frames, kinds), recordings):
        answer, met, compared = encoded(run, seed)
        coded.add(run.name, array('h', answer))
        total, all_met = total + run.frames(), all_met + met
        note = '' if compared == run.frames() else f', spandsp only to frame {compared}, where 4.2.4 changes a sign'
        print(f'encoded: {run.name}: {run.frames()} frames of {len(run.parts)} signals; {counts(met, ENDINGS)}; '
              f'{counts(met, MARKED)}{note}')
    for run in itertools.chain(signals.coded(seed, frames), [coded]):
        bad = decoded(run, seed)
        total, all_met['bad lags'] = total + run.frames(), all_met['bad lags'] + bad
        print(f'decoded: {run.name}: {run.frames()} frames of {len(run.parts)} signals; lags outside 40 to 120: {bad}')
    missing = [name for name in MET + ['bad lags'] if not all_met[name]]
    # fewer frames, or fewer kinds of sound, are too few for all
    if missing and frames >= 20000 and not kinds:
        raise Difference(f'seed {seed}: no frame reached: {", ".join(missing)}')
    return total


# ---- from any state

PLACES = ((0, 'head'), (states.HOUSE, 'words between head and state'), (states.STATE, 'state'),
          (states.SAMPLES, 'samples'), (states.RESIDUAL, 'residual'), (states.CODEWORDS, 'codewords'),
          (states.BYTES, 'bytes'), (states.UNUSED, 'unused words'))


def differs(seed: int, number: int, named: states.Named, place: int, values: Mapping[str, int]) -> NoReturn:
    (name, record), (start, part) = named, [each for each in PLACES if each[0] <= place][-1]
    said = ', '.join(f'{value} by {codec}' for codec, value in values.items())
    file = kept('differs-call.raw', record.tobytes())
    raise Difference(f'calls, seed {seed}: call {number} ({name}), word {place}, in the {part} at {place - start}: '
                     f'{said}\nthe record is {file}')


def libgsm_encodes(peer: peers.Libgsm, record: array[int]) -> Sequence[int]:
    """The codewords of the samples, or of the octets as spandsp expands them."""
    samples = record[states.SAMPLES:states.SAMPLES + 160]
    if record[0] == states.ENCODE_ALAW:
        return array('H', peer.encode(peers.spandsp_expand(bytes(x & 255 for x in samples))))
    return array('H', peer.encode(samples.tobytes()))


def libgsm_decodes(peer: peers.Libgsm, record: array[int]) -> Sequence[int]:
    """The samples, or the octets that spandsp compresses them to."""
    samples = peer.decode(record[states.CODEWORDS:states.CODEWORDS + 76].tobytes())
    return peers.spandsp_compress(samples) if record[0] == states.DECODE_ALAW else array('H', samples)


def libgsm_call(peer: peers.Libgsm, record: array[int]) -> Iterator[tuple[int, int]]:
    """libgsm's answer to a record that is not refused: the index of each word that it gives, and the word."""
    call, words = states.linear(record[0]), array('h', record.tobytes())
    peer.place(call, words[states.STATE:states.SAMPLES])
    answer = libgsm_encodes(peer, record) if call == states.ENCODE else libgsm_decodes(peer, record)
    yield from enumerate((x & 65535 for x in peer.carried(call)), states.STATE)
    yield from enumerate(answer, states.CODEWORDS if call == states.ENCODE else states.SAMPLES)


def number_given(record: Sequence[int], answer: Sequence[int]) -> str:
    """The call and the refusal number of its answer, as in 'encode 3'."""
    return f'{states.CALLS.get(record[0], states.NO_CALL)} {answer[0]}'


def within_the_rules(seed: int, number: int, named: states.Named, answer: array[int]) -> None:
    """Raises Difference unless a call answers with a number that it has, and changes only words that it may write."""
    if number_given(named[1], answer) not in states.DONE + states.REFUSALS:
        differs(seed, number, named, 0, {'both': answer[0]})
    expected = states.with_its_own(named[1], answer)
    if answer != expected:
        place = first_place(expected, answer)
        differs(seed, number, named, place, {'the rule': expected[place], 'both': answer[place]})


def as_libgsm(seed: int, number: int, named: states.Named, answer: array[int], peer: peers.Libgsm) -> None:
    """Raises Difference unless libgsm's answer to a record is the same."""
    for place, value in libgsm_call(peer, named[1]):
        if value != answer[place]:
            differs(seed, number, named, place, {'the others': answer[place], 'libgsm': value})


def forties(marks: Iterable[str], codewords: Sequence[int]) -> list[str]:
    """FORTY for each sub-frame whose lag of 40 was found with gain code 0."""
    shown = (f'{mark} {codewords[start]} {codewords[start + 1]}' for mark, start in zip(marks, signals.STARTS))
    return [each for each in shown if each == FORTY]


def met_by(name: str, record: array[int], answer: array[int]) -> Iterator[str]:
    """What a call that encodes or decodes reached and that was not refused: clips, the ending, the marks."""
    if states.linear(record[0]) == states.ENCODE:
        marks = [states.MARK_NAMES[mark] for mark in answer[2:6]]
        found = forties(marks, answer[states.CODEWORDS:states.CODEWORDS + 76])
        shown = [states.ENDING_NAMES[answer[1]], *marks, *found]
        yield from shown if record[0] == states.ENCODE else [f'A-law {each}' for each in shown]
    if record[0] not in states.LINEAR:
        clips = states.clips_met(record, answer)
        yield from clips
        yield from (states.ON_PURPOSE + clip for clip in clips if name.startswith(states.ON_PURPOSE))


def calls(seed: int, count: int) -> tuple[int, Met]:
    """Compares single calls: ours and the second codec on all, libgsm on those that encode or decode. How many calls,
    and what they reached."""
    made, met = states.records(seed, count), Met()
    asked = b''.join(record.tobytes() for _, record in made)
    answers = {'the second codec': peers.second('calls', asked), 'ours': peers.ours('calls', asked)}
    for codec, answer in answers.items():
        if len(answer) != len(asked):
            raise Difference(f'calls: {codec} gives {len(answer)} bytes for {len(asked)}; the records are '
                             f'{kept("differs-calls.raw", asked)}')
    first, second = (array('H', answer) for answer in answers.values())
    if first != second:
        place = first_place(first, second)
        number, values = place // states.WORDS, {'the second codec': first[place], 'ours': second[place]}
        differs(seed, number, made[number], place % states.WORDS, values)
    peer = peers.Libgsm()
    for number, (name, record) in enumerate(made):
        words = first[number * states.WORDS:(number + 1) * states.WORDS]
        within_the_rules(seed, number, (name, record), words)
        met[number_given(record, words)] += 1
        if words[0] == 0 and states.linear(record[0]) in (states.ENCODE, states.DECODE):
            as_libgsm(seed, number, (name, record), words, peer)
            met['libgsm'] += 1
            met.update(met_by(name, record, words))
    return len(made), met


def from_states(seed: int, count: int) -> int:
    total, met = calls(seed, count)
    print(f'calls: {total} records; refusal numbers reached: {counts(met, states.DONE + states.REFUSALS)}; '
          f'libgsm from the same states: {met["libgsm"]}')
    print(f'calls: {counts(met, ENDINGS)}; {counts(met, MARKED)}; {counts(met, states.CLIPS)}; {counts(met, ALAW_MET)}')
    wanted = [states.ON_PURPOSE + clip for clip in states.CLIPS] + states.DONE + states.REFUSALS + MET + ALAW_MET
    missing = [name for name in wanted if not met[name]]
    if missing:
        raise Difference(f'no call reached: {", ".join(missing)}')
    return total


# ---- the modes

def built() -> None:
    """Names the codecs, and builds those that are built here."""
    peers.build_second()
    build_libgsm.build()
    with open(build_libgsm.NAME, encoding='utf-8') as file:
        print('compared: our programs, and our calls from C and from Rust; the second codec; spandsp; ' + file.read(),
              end='')


def comparison(seed: int, frames: int) -> None:
    began = time.monotonic()
    total = from_home(seed, frames) + alaw_comparison.from_home(seed, frames // 10) + from_states(seed, frames // 5)
    print(f'seed {seed}: {total} frames and calls, no difference ({time.monotonic() - began:.0f} s)')


def asterisk() -> list[str]:
    """The paths of asterisk's recordings, if their package is installed."""
    listed = subprocess.run(['dpkg', '-L', 'asterisk-core-sounds-en-wav'], stdout=subprocess.PIPE,
                            stderr=subprocess.DEVNULL, text=True).stdout
    return sorted(path for path in listed.splitlines() if path.endswith('.wav'))


def recordings(paths: Sequence[str], dice: random.Random) -> list[signals.Run]:
    """A run of twenty of the recordings, cut to whole frames."""
    run = signals.Run('recordings', 160)
    for path in dice.sample(paths, min(20, len(paths))):
        with wave.open(path) as sound:
            if (sound.getframerate(), sound.getsampwidth(), sound.getnchannels()) == (8000, 2, 1):
                samples = array('h', sound.readframes(sound.getnframes()))
                run.add(os.path.basename(path), samples[:len(samples) // 160 * 160])
    return [run] if run.parts else []


def back_to_back(run: signals.Run, seed: int) -> int:
    """Both our ends on the samples of a run, frame by frame: the program together says of each frame whether they hold
    the same, and counts the frames in its last line."""
    lines = peers.ours('together', run.words.tobytes()).decode().splitlines()
    apart = [line for line in lines[:-1] if not line.endswith('\ttogether')]
    if apart or len(lines) != run.frames() + 1 or lines[-1] != f'E\t{run.frames()}\t0':
        raise Difference(f'{run.name}, seed {seed}: not together: {(apart + lines[-1:] + ["no line"])[0]}')
    return run.frames()


def soak(seconds: int, seed: int) -> None:
    began, total, paths = time.monotonic(), 0, asterisk()
    print(f'recordings found: {len(paths)}')
    for number in itertools.count(1):
        print(f'round {number}, seed {seed}')
        # sounds that do not depend on the seed are compared once
        kinds = None if number == 1 else signals.CHANGING
        total += from_home(seed, 20000, kinds, recordings(paths, random.Random(seed))) + from_states(seed, 4000)
        total += alaw_comparison.from_home(seed, 2000, number == 1)
        total += sum(back_to_back(run, seed) for run in signals.sounds(seed, 20000, kinds))
        passed = time.monotonic() - began
        print(f'after round {number}: {total} frames and calls in {passed:.0f} s, {total / passed:.0f} a second, no '
              'difference', flush=True)
        if passed >= seconds:
            return
        seed += 1


def arguments_given() -> argparse.Namespace:
    parser = argparse.ArgumentParser(description=__doc__, formatter_class=argparse.RawDescriptionHelpFormatter)
    choice = parser.add_mutually_exclusive_group(required=True)
    choice.add_argument('--frames', type=int, metavar='N')
    choice.add_argument('--alaw', action='store_true')
    choice.add_argument('--vectors', metavar='DIR')
    choice.add_argument('--sequences', action='store_true')
    choice.add_argument('--programs', action='store_true')
    choice.add_argument('--limit', action='store_true')
    choice.add_argument('--soak', type=int, metavar='SECONDS')
    parser.add_argument('--seed', type=int, default=961, metavar='S')
    return parser.parse_args()


def main() -> int:
    arguments = arguments_given()
    try:
        built()
        if arguments.alaw:
            alaw_comparison.rules()
        elif arguments.vectors:
            vector_comparison.vectors(arguments.vectors)
        elif arguments.sequences:
            vector_comparison.sequences(os.environ.get('RPELTP_SEQUENCES'))
        elif arguments.programs:
            program_tests.other_runs()
        elif arguments.limit:
            program_tests.limit()
        elif arguments.soak is not None:
            soak(arguments.soak, arguments.seed)
        else:
            comparison(arguments.seed, arguments.frames)
    except (Difference, peers.Failed, build_libgsm.Missing) as fault:
        print(fault)
        return 1
    return 0


if __name__ == '__main__':
    sys.exit(main())
