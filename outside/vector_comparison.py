"""The stored vectors and, where somebody has them, the published sequences: our programs and the second codec on each.
compare.py --vectors and --sequences call it."""
from __future__ import annotations

import os
import random
from array import array
from typing import Any

import peers
import states
from differences import Difference, same_bytes

# table A3.1 of the standard: the frames of each sequence; the last has no samples to encode
SEQUENCES = {'SEQ01': 584, 'SEQ02': 947, 'SEQ03': 673, 'SEQ04': 520, 'SEQ05': 64}
FRAME_BYTES = {'INP': 320, 'COD': 152, 'OUT': 320}


def contents(path: str) -> bytes:
    with open(path, 'rb') as file:
        return file.read()


def frames(path: str, size: int) -> list[list[int]]:
    """The whole frames of a file, of size words each."""
    raw = contents(path)
    words = array('h', raw[:len(raw) // (2 * size) * (2 * size)])
    return [words[start:start + size].tolist() for start in range(0, len(words), size)]


def by_both(name: str, mode: str, program: str, given: bytes, source: str, expected: bytes) -> None:
    """Our program and the second codec on what is given; both must give the bytes of a file."""
    same_bytes(name, (source, expected), ('ours', peers.ours(program, given)))
    same_bytes(name, (source, expected), ('the second codec', peers.second(mode, given)))


# ---- vectors

def named(folder: str, ending: str) -> list[str]:
    """The paths of the files in a folder with that ending, without the ending, in order."""
    names = sorted(os.listdir(folder)) if os.path.isdir(folder) else []
    return [os.path.join(folder, name[:-len(ending)]) for name in names if name.endswith(ending)]


def packed_by_calls(path: str) -> None:
    """The frames of a vector packed and unpacked by single calls of both."""
    dice, expected, asked = random.Random(path), [], []
    for number, codewords in enumerate(frames(path + '.cod', 76)):
        packed = list(contents(path + '.pack')[33 * number:33 * number + 33])
        calls: tuple[tuple[int, dict[str, Any]], ...] = (
            (states.PACK, {'codewords': codewords}), (states.UNPACK, {'packed': packed}))
        for call, given in calls:
            record = states.record(dice, call, **given)
            asked.append(record.tobytes())
            record[:states.HOUSE] = array('H', [0] * states.HOUSE)
            record[states.CODEWORDS:states.CODEWORDS + 76] = array('H', codewords)
            record[states.BYTES:states.BYTES + 33] = array('H', packed)
            expected.append(record.tobytes())
    by_both(f'{path}: packed and unpacked', 'calls', 'calls', b''.join(asked), 'the file', b''.join(expected))


def encoder_vector(path: str) -> int:
    """Compares what PATH.raw gives with PATH.cod, .lst and .pack, and back; how many frames that is."""
    raw, cod, packed = (contents(path + ending) for ending in ('.raw', '.cod', '.pack'))
    if len(cod) != len(raw) // 320 * 152:
        raise Difference(f'{path}.cod: it does not have one frame for each frame of .raw')
    by_both(f'{path}.cod', 'encode', 'encode', raw, 'the file', cod)
    by_both(f'{path}.lst', 'list', 'lister', raw, 'the file', contents(path + '.lst'))
    same_bytes(f'{path}.pack', ('the file', packed), ('the second codec', peers.second('pack', cod)))
    same_bytes(f'{path}.pack, unpacked', ('the file', cod), ('the second codec', peers.second('unpack', packed)))
    packed_by_calls(path)
    return len(raw) // 320


def decoder_vector(path: str) -> int:
    """Compares what PATH.cod gives with PATH.out; how many frames that is."""
    cod = contents(path + '.cod')
    by_both(f'{path}.out', 'decode', 'decode', cod, 'the file', contents(path + '.out'))
    return len(cod) // 152


def vectors(folder: str) -> None:
    to_encode = named(os.path.join(folder, 'enc'), '.raw')
    to_decode = named(os.path.join(folder, 'enc'), '.cod') + named(os.path.join(folder, 'dec'), '.cod')
    if not to_encode or not to_decode:
        raise Difference(f'{folder}: no vectors')
    print('vectors, by ours and by the second codec:')
    print(f'{sum(map(encoder_vector, to_encode))} frames of {len(to_encode)} files encoded, listed, packed and '
          'unpacked: no difference')
    print(f'{sum(map(decoder_vector, to_decode))} frames of {len(to_decode)} files decoded: no difference')


# ---- the published sequences

def sequence(folder: str, name: str, frames: int) -> dict[str, bytes]:
    """The files of one sequence by their endings, each of the size that table A3.1 gives."""
    present, found = {entry.upper(): entry for entry in os.listdir(folder)}, {}
    for ending, size in FRAME_BYTES.items():
        file = f'{name}.{ending}'
        if file == 'SEQ05.INP':
            continue
        if file not in present:
            raise Difference(f'the published sequences: there is no {file}')
        found[ending] = contents(os.path.join(folder, present[file]))
        if len(found[ending]) != size * frames:
            raise Difference(f'the published sequences: {file} has {len(found[ending])} bytes; by table A3.1 {frames} '
                             f'frames have {size * frames}')
    return found


def sequences(folder: str | None) -> None:
    if not folder:
        print('NOT RUN: the published sequences SEQ01 to SEQ05 were not at hand (RPELTP_SEQUENCES names no folder)')
        return
    if not os.path.isdir(folder):
        raise Difference('the published sequences: RPELTP_SEQUENCES does not name a folder')
    for name, frames in SEQUENCES.items():
        found = sequence(folder, name, frames)
        if 'INP' in found:
            by_both(f'{name}.COD', 'encode', 'encode', found['INP'], 'the sequence', found['COD'])
        by_both(f'{name}.OUT', 'decode', 'decode', found['COD'], 'the sequence', found['OUT'])
        print(f'{name}: {frames} frames{" encoded and" if "INP" in found else ""} decoded: no difference')
