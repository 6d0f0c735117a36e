#!/usr/bin/env python3
"""Shows that the inputs of the comparison distinguish a wrong codec from a right one: mutants of the second codec, each
with one small wrong change.

    python3 outside/try_mutants.py [NAME..]       every mutant of mutants.txt, or those named

Each is built and gets the inputs of `compare.py --frames 20000`, of `compare.py --alaw` and of the lister's runs, the
quickest first, until its answer differs from that of the second codec. Status 1: a mutant whose answers never differ,
or a change that does not apply."""
from __future__ import annotations

import concurrent.futures
import os
import re
import shutil
import subprocess
import sys
import time
from array import array
from collections.abc import Iterator

import alaw_comparison
import program_tests
import peers
import signals
import states
from differences import first_place

# name, file, old, new and why of a mutant; mode, name and bytes of an input; mode, name, path and answer of a saved one
Mutant = dict[str, str]
Input = tuple[str, str, bytes]
Saved = tuple[str, str, str, bytes]

FOLDER = os.path.join(peers.BUILD, 'mutants')
LIST = os.path.join(peers.HERE, 'mutants.txt')
SEED, FRAMES = 961, 20000
PATIENCE = 30
# bytes that each mode takes in about the same time
COST = {'list': 320, 'encode': 320, 'decode': 304, 'calls': 1536, 'expand': 8000, 'compress': 16000,
        'compress-samples': 16000, 'encode-alaw': 160, 'decode-alaw': 304}
# These use the same codec as the modes of 16 bits, whose inputs must find by themselves what is wrong there: these come
# last.
LAST = ('encode-alaw', 'decode-alaw')
# quick to build and quick enough to run; a mutant that overflows must end, as the second codec would
FLAGS = ['--edition', '2021', '-A', 'warnings', '-C', 'opt-level=1', '-C', 'codegen-units=1',
         '-C', 'overflow-checks=on', '-C', 'debuginfo=0']


def mutants_of(text: str) -> Iterator[Mutant]:
    """The mutants in the text of mutants.txt. Old or new text of several lines has as many lines old: or new:."""
    for block in re.sub(r'^#.*\n', '', text, flags=re.M).strip().split('\n\n'):
        fields: Mutant = {}
        for line in block.splitlines():
            key, _, rest = line.partition(':')
            fields[key] = f'{fields[key]}\n{rest[1:]}' if key in fields else rest[1:]
        yield fields


def mutants() -> list[Mutant]:
    with open(LIST, encoding='utf-8') as file:
        return list(mutants_of(file.read()))


def inputs() -> Iterator[Input]:
    """Every input."""
    for run in signals.sounds(SEED, FRAMES):
        yield 'list', run.name, run.words.tobytes()
    for run in signals.coded(SEED, FRAMES):
        yield 'decode', run.name, run.words.tobytes()
    yield 'calls', 'single calls', b''.join(record.tobytes() for _, record in states.records(SEED, FRAMES // 5))
    for name, given in program_tests.inputs():
        yield 'list', name, given
    yield 'encode', 'speech', program_tests.speech()
    yield from alaw_inputs()


def alaw_inputs() -> Iterator[Input]:
    """The inputs of compare.py --alaw, and octets and frames from home."""
    yield 'expand', 'all octets', bytes(range(256))
    yield 'compress', 'all values of 13 bits', array('h', range(-4096, 4096)).tobytes()
    yield 'compress-samples', 'all samples', array('h', range(-32768, 32768)).tobytes()
    for run in alaw_comparison.octet_runs(SEED, FRAMES // 10):
        yield 'encode-alaw', run.name, run.words.tobytes()
    for run in signals.coded(SEED, FRAMES // 10):
        yield 'decode-alaw', run.name, run.words.tobytes()


def cost(each: Input) -> tuple[bool, float]:
    mode, _, given = each
    return mode in LAST, len(given) / COST[mode]


def saved() -> list[Saved]:
    """The inputs as files, quickest first, each with the answer of the second codec."""
    ready = []
    for number, (mode, name, given) in enumerate(sorted(inputs(), key=cost)):
        path = os.path.join(FOLDER, f'{number}.raw')
        with open(path, 'wb') as file:
            file.write(given)
        ready.append((mode, name, path, peers.second(mode, given)))
    return ready


def changed(mutant: Mutant) -> str:
    """Makes a copy of the second codec's source with the mutant's change, which must apply exactly once; its folder."""
    source = os.path.join(FOLDER, mutant['name'])
    shutil.copytree(os.path.join(peers.SOURCE, 'src'), source)
    path = os.path.join(source, mutant['file'])
    with open(path, encoding='utf-8') as file:
        text = file.read()
    if text.count(mutant['old']) != 1:
        raise peers.Failed(f'{mutant["name"]}: the old text is {text.count(mutant["old"])} times in {mutant["file"]}')
    with open(path, 'w', encoding='utf-8') as file:
        file.write(text.replace(mutant['old'], mutant['new']))
    return source


def caught(mutant: Mutant, ready: list[Saved]) -> str | None:
    """The mode, the input and the byte at which a mutant differs from the second codec; None, if it never differs."""
    source = changed(mutant)
    program = os.path.join(source, 'mutant')
    peers.run(['rustc', *FLAGS, '-o', program, os.path.join(source, 'main.rs')], b'')
    try:
        for mode, name, path, want in ready:
            with open(path, 'rb') as given:
                done = subprocess.run([program, mode], stdin=given, stdout=subprocess.PIPE, stderr=subprocess.DEVNULL,
                                      timeout=PATIENCE)
            if done.returncode != 0:
                return f'{mode}, {name}: it ends with status {done.returncode}'
            if done.stdout != want:
                return f'{mode}, {name}, byte {first_place(want, done.stdout)} of {len(want)}'
    except subprocess.TimeoutExpired:
        return f'{mode}, {name}: it has not ended in {PATIENCE} s'
    finally:
        shutil.rmtree(source)
    return None


def main() -> int:
    began, wanted = time.monotonic(), sys.argv[1:]
    shutil.rmtree(FOLDER, ignore_errors=True)
    os.makedirs(FOLDER)
    chosen = [mutant for mutant in mutants() if not wanted or mutant['name'] in wanted]
    if not chosen or len({mutant['name'] for mutant in chosen}) != len(chosen):
        print('mutants: no such mutant, or two of one name')
        return 1
    try:
        peers.build_second()
        ready = saved()
        survivors: list[str] = []
        with concurrent.futures.ThreadPoolExecutor(2) as pool:
            for mutant, place in zip(chosen, pool.map(lambda mutant: caught(mutant, ready), chosen)):
                print(f'{mutant["name"]}: {place or "NOT CAUGHT"}', flush=True)
                survivors += [mutant['name']] * (place is None)
    except peers.Failed as failed:
        print(failed)
        return 1
    print(f'{len(chosen) - len(survivors)} of {len(chosen)} mutants caught ({time.monotonic() - began:.0f} s)')
    return 1 if survivors else 0


if __name__ == '__main__':
    sys.exit(main())
