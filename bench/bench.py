#!/usr/bin/env python3
"""Measures our codec beside the others, in one process: `make bench`, or python3 bench/bench.py.

Writes bench/results.tsv, bench/channels.tsv, bench/programs.tsv, bench/notes.txt and bench/results.svg. ROUNDS in the
environment says how many rounds are timed: 101, which take a minute or two; 5 take seconds. What is missing is
installed as Debian's packages where possible. A codec that cannot be installed or built is named as missing, and the
others are measured. Status 1: nothing could be compiled, or the bits of ours differ from libgsm's; then nothing is
timed."""
from __future__ import annotations

import os
import platform
import random
import shutil
import subprocess
import sys
import tarfile
import wave
from collections.abc import Callable, Sequence

HERE = os.path.dirname(os.path.abspath(__file__))
ROOT = os.path.dirname(HERE)
BUILD = os.path.join(ROOT, 'build', 'bench')
sys.path.insert(0, os.path.join(ROOT, 'outside'))
import build_libgsm
import picture
import programs
import signals
import tables
from tables import AVCODEC, NATIVE, OURS, REFERENCE, WORDS

FRAMES, SEED = 3072, 961
PROMPTS = 'asterisk-core-sounds-en-wav'
# of Debian's libraries: name, kind, file, package
DEBIAN = (('libgsm of Debian', 'libgsm', 'libgsm.so.1', 'libgsm1'),
          ('spandsp of Debian', 'spandsp', 'libspandsp.so.2', 'libspandsp2'),
          (AVCODEC, 'libavcodec', '-', 'libavcodec-dev'))


class Failed(Exception):
    """Why nothing can be measured, in words."""


def run(words: Sequence[str], folder: str = ROOT) -> tuple[int, str]:
    """The status of a command, and what it said."""
    try:
        done = subprocess.run(words, cwd=folder, stdin=subprocess.DEVNULL, stdout=subprocess.PIPE,
                              stderr=subprocess.STDOUT, text=True)
    except OSError as fault:
        return 1, str(fault)
    return done.returncode, done.stdout.strip()


def install(name: str) -> None:
    """Installs a package if that is possible. The compiler and the programs find out whether it is there."""
    status, said = run([os.path.join(ROOT, 'outside', 'install_packages'), name])
    if said:
        print(said, flush=True)
    if status != 0:
        print(f'{name} could not be installed', flush=True)


# ---- the codecs

def reference_libgsm() -> str:
    build_libgsm.build()
    return build_libgsm.LIBRARY


def native_libgsm() -> str:
    """libgsm with all that gcc has: -O3, -march=native, no assertions. (The -O2 build has them, as libgsm's makefile
    and Debian's build do.)"""
    library, folder = os.path.join(BUILD, 'libgsm-native.so'), os.path.join(BUILD, 'libgsm')
    if os.path.exists(library):
        return library
    shutil.rmtree(folder, ignore_errors=True)
    os.makedirs(folder)
    _, source = build_libgsm.fetch(folder)
    build_libgsm.compile_library(folder, source, library, ['-O3', '-march=native', '-DNDEBUG'])
    shutil.rmtree(folder)
    return library


def our_archive() -> str:
    """Our library: as it is shipped on x86-64, and elsewhere compiled from the same module."""
    if platform.machine() == 'x86_64':
        archive = os.path.join(ROOT, 'build', 'lib', 'librpeltp.a')
        status, said = int(not os.path.exists(archive)), 'build/lib/librpeltp.a is not there; make archive makes it'
    else:
        archive = os.path.join(BUILD, 'librpeltp-native.a')
        print("ours: compiling the library's module for this kind of processor; minutes, where nothing is proved yet",
              flush=True)
        status, said = run([os.path.join(HERE, 'native.sh'), archive])
    if status != 0:
        raise build_libgsm.Missing(said)
    return archive


def had(make: Callable[[], str], missing: dict[str, str], *names: str) -> str | None:
    """What make returns; or None, and then missing has the reason for each of the names."""
    try:
        return make()
    except (build_libgsm.Missing, OSError, tarfile.TarError) as fault:
        missing.update(dict.fromkeys(names, str(fault)))
        return None


def codecs(missing: dict[str, str]) -> tuple[list[str], str | None]:
    """The words that name the codecs to the programs, and our library. All are compared with the first one."""
    reference = had(reference_libgsm, missing, REFERENCE)
    archive = had(our_archive, missing, OURS, WORDS)
    native = had(native_libgsm, missing, NATIVE)
    listed = [('libgsm', REFERENCE, reference), ('ours', OURS, archive), ('words', WORDS, archive),
              ('libgsm', NATIVE, native), *((kind, name, library) for name, kind, library, _ in DEBIAN)]
    return [word for kind, name, path in listed if path for word in (kind, name, path)], archive


def compiled(name: str, archive: str | None) -> str:
    """Compiles bench.c or state.c, with the codecs; the path of the program."""
    program = os.path.join(BUILD, name)
    flags = ['-std=c11', '-O2', '-Wall', '-Wextra', '-I', os.path.join(ROOT, 'c')]
    headers, _ = run(['gcc', *flags, '-DAVCODEC', '-fsyntax-only', os.path.join(HERE, 'avcodec.c')])
    flags += ['-DAVCODEC'] * (headers == 0) + ['-DOURS'] * (archive is not None) + ['-rdynamic'] * (name == 'state')
    files = [os.path.join(HERE, f'{part}.c') for part in (name, 'ours', 'peers', 'avcodec')]
    status, said = run(['gcc', *flags, '-o', program, *files, *([archive] if archive else []), '-ldl'])
    if said:
        print(said)
    if status != 0:
        raise Failed(f'{name}.c could not be compiled')
    return program


# ---- the material

def prompts() -> bytes:
    """The samples of the prompts, if they are installed and have 16 bits at 8 kHz."""
    status, said = run(['dpkg', '-L', PROMPTS])
    samples = b''
    for path in sorted(said.splitlines()) if status == 0 else []:
        if path.endswith('.wav') and len(samples) < 320 * FRAMES:
            with wave.open(path, 'rb') as file:
                if file.getparams()[:3] == (1, 2, 8000):
                    samples += file.readframes(file.getnframes())
    return samples


def material() -> tuple[list[str], str, bytes]:
    """Writes the three materials; the words that name them to bench, a note on the two that are timed, the speech."""
    speech, which = prompts(), f'the prompts of {PROMPTS}'
    if len(speech) < 320 * FRAMES:
        with open(os.path.join(ROOT, 'recordings', 'speech.raw'), 'rb') as file:
            speech = file.read()
        which = f'recordings/speech.raw, {len(speech) // 320} frames, again and again'
        speech *= 320 * FRAMES // len(speech) + 1
    # here libgsm with a floating-point search and spandsp with MMX have other bits: both are Debian's for x86-64
    hard = signals.square(160 * 400, 13) + signals.jump(160 * 200, *signals.ENDS)
    noise = signals.random_words(random.Random(SEED), 160 * FRAMES)
    words = []
    for name, samples in (('speech', speech), ('noise', noise.tobytes()), (tables.HARD, 6 * hard.tobytes())):
        path = os.path.join(BUILD, f'{name.split()[0]}.raw')
        with open(path, 'wb') as file:
            file.write(samples[:320 * FRAMES])
        words += [name, path]
    return words, f'speech is {which}; noise is random words of 16 bits, seed {SEED}', speech


# ---- the run

def measured(rounds: str, heard: Sequence[str], listed: Sequence[str], archive: str | None) -> str:
    """What both programs write; bench says on standard error what it is doing."""
    text = ''
    for words in ([compiled('bench', archive), rounds, *heard, *listed], [compiled('state', archive), *listed]):
        done = subprocess.run(words, stdin=subprocess.DEVNULL, stdout=subprocess.PIPE, text=True)
        if done.returncode != 0:
            raise Failed(f'{os.path.basename(words[0])} ended with status {done.returncode}')
        text += done.stdout
    return text


def programs_run(speech: bytes, rounds: str) -> int:
    """The programs, beside those of libgsm. Where one is missing, the old table is kept."""
    install('toast')
    print('ten minutes of speech through the programs, on standard input and output', flush=True)
    try:
        best = programs.measured(speech, BUILD, rounds)
    except (programs.Missing, OSError) as fault:
        print(f'missing: the programs: {fault}')
        return 1
    programs.write(best)
    tables.aligned(programs.HEADER, list(programs.rows(best)))
    print('written: bench/programs.tsv')
    return 0


def main() -> int:
    rounds = os.environ.get('ROUNDS', '101')
    missing: dict[str, str] = {}
    if not rounds.isdecimal() or int(rounds) == 0:
        print(f'bench: ROUNDS is a number from 1 on, and not {rounds!r}')
        return 2
    os.makedirs(BUILD, exist_ok=True)
    for package in ('gcc', 'libc6-dev', *(package for *_, package in DEBIAN)):
        install(package)
    try:
        listed, archive = codecs(missing)
        heard, what, speech = material()
        said = tables.Said(measured(rounds, heard, listed, archive), rounds, what, missing)
    except Failed as failed:
        print(f'bench: {failed}; no table is written')
        return 1
    tables.write(said)
    picture.draw()
    tables.show(said)
    return programs_run(speech, rounds)


if __name__ == '__main__':
    sys.exit(main())
