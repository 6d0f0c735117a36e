#!/usr/bin/env python3
"""Tests the calls from C and from Rust: builds programs over the library build/lib/librpeltp.a, and runs them.

    python3 outside/check_boundary.py --build     builds the programs of c/ and of rust/, in build/
    python3 outside/check_boundary.py             the tests, over what was built
    python3 outside/check_boundary.py --installed FOLDER ARCHIVE
                                                  tests what make install put in a folder, and make dist in an archive

outside/compare.py compares the same programs with other codecs. Status 1: a difference, or a program that could not be
built."""
from __future__ import annotations

import os
import platform
import re
import shutil
import subprocess
import sys

import check_layout
import peers
from differences import Difference, same_bytes

ROOT = check_layout.ROOT
BUILD, VECTORS = os.path.join(ROOT, 'build'), os.path.join(ROOT, 'outside', 'vectors', 'calls')
ARCHIVE, CARGO = os.path.join(BUILD, 'lib', 'librpeltp.a'), os.path.join(ROOT, 'outside', 'cargo_x86')
# the compiled programs; build/NAME runs each of them, on either kind of machine
COMPILED = os.path.join(BUILD, 'x86')
LAUNCHER = """#!/bin/sh
# Runs the program of this name in build/x86, as it is or under the emulator.
here=$(cd "$(dirname "$0")" && pwd -P)
exec "$here/../outside/x86_tools" run "$here/x86/${0##*/}" "$@"
"""
FLAGS = ['-std=gnu11', '-Wall', '-Wextra', '-Wpedantic', '-Werror']
PROGRAMS = {'calls': 'c/tests/calls.c', 'stream': 'c/tests/stream.c', 'refusals': 'c/tests/refusals.c',
            'example': 'c/example.c'}
RUST_EXAMPLE = os.path.join(os.path.dirname(peers.RUST), 'frames')
NATIVE = platform.machine() == 'x86_64'
# written where something is not run, so that nobody takes it for passed
NOT_RUN = 'NOT RUN here: '


def contents(*path: str) -> bytes:
    with open(os.path.join(*path), 'rb') as file:
        return file.read()


# ---- building

def compiled(source: str, program: str, *flags: str, include: str = 'c') -> str:
    """Compiles and links one program for x86-64 over the archive."""
    folder, file = os.path.join(ROOT, include), os.path.join(ROOT, source)
    peers.run([peers.X86, 'cc', *FLAGS, *flags, '-I', folder, '-o', program, file, ARCHIVE], b'')
    return program


def build() -> None:
    os.makedirs(COMPILED, exist_ok=True)
    for name, source in PROGRAMS.items():
        compiled(source, os.path.join(COMPILED, name), '-O2')
        with open(os.path.join(BUILD, name), 'w', encoding='utf-8') as file:
            file.write(LAUNCHER)
        os.chmod(file.name, 0o755)
    peers.run([CARGO, 'build', '--release', '--examples'], b'')


# ---- the tests

def run(program: str, given: bytes = b'', *words: str) -> bytes:
    return peers.run([peers.X86, 'run', program, *words], given)


def every_length() -> None:
    """Every wrong length, by a program compiled in several ways."""
    for flags in (['-O0'], ['-O2'], ['-O3', '-fno-pie', '-no-pie'], ['-O2', '-static']):
        said = run(compiled(PROGRAMS['refusals'], os.path.join(COMPILED, 'refusals-tried'), *flags))
        print(f'{said.decode().strip()} ({" ".join(flags)})')


def recorded() -> None:
    """The stored records; and a header with two fields exchanged gives other answers."""
    asked, answered = contents(VECTORS, 'asked.raw'), contents(VECTORS, 'answered.raw')
    same_bytes('calls', ('the stored answers', answered), ('ours from C', run(os.path.join(COMPILED, 'calls'), asked)))
    header, folder, made = check_layout.read(check_layout.HEADER), os.path.join(BUILD, 'exchanged'), 0
    os.makedirs(folder, exist_ok=True)
    for what, text in check_layout.altered(header):
        if 'exchanged' not in what:
            continue
        with open(os.path.join(folder, 'rpeltp.h'), 'w', encoding='utf-8') as file:
            file.write(re.sub(r'^RPELTP_(?:SIZE|PLACE)\(rp.*\n', '', text, flags=re.M))
        program = compiled(PROGRAMS['calls'], os.path.join(folder, 'calls'), '-O2', include=folder)
        if run(program, asked) == answered:
            raise Difference(f'calls: not noticed: {what}')
        made += 1
    shutil.rmtree(folder)
    print(f'calls: {len(asked) // 1536} stored records, no difference; '
          f'{made} headers with two fields exchanged are each noticed')


def undefined() -> None:
    """The C programs with checks for undefined behaviour."""
    flags = ['-O1', '-g', '-fsanitize=undefined', '-fno-sanitize-recover=all']
    for name, given in (('calls', contents(VECTORS, 'asked.raw')), ('refusals', b'')):
        program = compiled(PROGRAMS[name], os.path.join(COMPILED, f'{name}-tried'), *flags)
        expected = run(os.path.join(COMPILED, name), given)
        same_bytes(f'{name}, checked', ('the program', expected), ('the checked one', run(program, given)))
    print('undefined behaviour of the C programs: none in calls and refusals')


def watched() -> None:
    """Under Valgrind, which notices what the library itself reads and writes, on x86-64 only."""
    if not NATIVE:
        print(f'{NOT_RUN}Valgrind, which does not run x86-64 code on this kind of machine; '
              'every buffer that was passed ended at memory that may not be touched')
        return
    valgrind = ['valgrind', '--quiet', '--error-exitcode=9', '--leak-check=no']
    probe = subprocess.run([*valgrind, os.path.join(COMPILED, 'stream'), 'encode'], stdin=subprocess.DEVNULL,
                           stdout=subprocess.PIPE, stderr=subprocess.STDOUT, text=True)
    if probe.returncode != 0:
        print(f'{NOT_RUN}Valgrind, which does not start: {probe.stdout.strip()}')
        return
    asked, answered = contents(VECTORS, 'asked.raw'), contents(VECTORS, 'answered.raw')
    answers = peers.run([*valgrind, os.path.join(COMPILED, 'calls')], asked)
    same_bytes('calls under Valgrind', ('the stored answers', answered), ('ours from C', answers))
    peers.run([*valgrind, os.path.join(COMPILED, 'refusals'), '16'], b'')
    print('Valgrind: calls and refusals, nothing found')


def listed(samples: bytes) -> bytes:
    """What the examples print, made from the lister's lines."""
    frames: list[list[str]] = []
    for line in peers.ours('lister', samples).decode().splitlines():
        fields = line.split('\t')
        if fields[0] == 'F':
            frames.append([fields[1], fields[2]])
        elif fields[0] == 'S':
            frames[-1].append(f'{fields[4]} {fields[3]}')
        elif fields[0] == 'E':
            frames.append(fields[:4])
    return ''.join('\t'.join(frame) + '\n' for frame in frames).encode()


def examples() -> None:
    """Both examples on the recording, whole and cut, compared with the lister."""
    speech = contents(ROOT, 'recordings', 'speech.raw')
    for samples in (speech, speech[:-7], b'', b'\x01'):
        expected = listed(samples)
        same_bytes('the example in C', ('the lister', expected), ('C', run(os.path.join(COMPILED, 'example'), samples)))
        same_bytes('the example in Rust', ('the lister', expected), ('Rust', run(RUST_EXAMPLE, samples)))
    print(f'examples: {len(speech) // 320} frames and the bytes left over: the same from C, from Rust, by the lister')


def in_c_plus_plus() -> None:
    """The header as C++, in the oldest version that has its assertions."""
    header = os.path.join(ROOT, check_layout.HEADER)
    peers.run(['g++', '-std=c++11', *FLAGS[1:], '-fsyntax-only', '-x', 'c++', header], b'')
    print('rpeltp.h: it compiles as C++11')


def rust() -> None:
    """The crate's own tests, with those in its documentation."""
    done = subprocess.run([CARGO, 'test'], stdin=subprocess.DEVNULL, stdout=subprocess.PIPE,
                          stderr=subprocess.STDOUT, text=True)
    told = re.findall(r'^test result: ok\. (\d+) passed; 0 failed', done.stdout, re.M)
    if done.returncode != 0 or not re.search(r'Doc-tests rpeltp\n\nrunning [1-9]', done.stdout):
        raise Difference(f'the tests of the Rust crate:\n{done.stdout}')
    print(f'Rust: {sum(map(int, told))} tests pass, with those in the documentation')


# ---- what is installed

def from_there(prefix: str) -> list[str]:
    """The example over a prefix, by pkg-config alone; and each program there. The names of the programs."""
    os.environ['PKG_CONFIG_PATH'] = os.path.join(prefix, 'lib', 'pkgconfig')
    version = peers.run(['pkg-config', '--modversion', 'rpeltp'], b'')
    same_bytes('pkg-config', ('VERSION', contents(ROOT, 'VERSION')), ('rpeltp.pc', version))
    flags = peers.run(['pkg-config', '--cflags', '--libs', 'rpeltp'], b'').decode().split()
    speech, program = contents(ROOT, 'recordings', 'speech.raw'), os.path.join(COMPILED, 'example-installed')
    peers.run([peers.X86, 'cc', '-o', program, os.path.join(ROOT, PROGRAMS['example']), *flags], b'')
    same_bytes(f'the example over {prefix}', ('the lister', listed(speech)), ('C', run(program, speech)))
    names, codewords = sorted(os.listdir(os.path.join(prefix, 'bin'))), peers.ours('encode', speech)
    for name in names:
        given = codewords if 'decode' in name else speech
        expected = peers.ours(name.replace('rpeltp-', ''), given)
        same_bytes(f'{prefix}: {name}', ('crates', expected), ('it', run(os.path.join(prefix, 'bin', name), given)))
    return names


def installed(prefix: str, archive: str) -> None:
    """A folder that make install filled, and the archive of make dist, unpacked."""
    folder = os.path.join(BUILD, 'unpacked')
    shutil.rmtree(folder, ignore_errors=True)
    os.makedirs(folder)
    peers.run(['tar', '-xzf', archive, '-C', folder], b'')
    unpacked = os.path.join(folder, *os.listdir(folder))
    names = from_there(os.path.abspath(prefix))
    if from_there(unpacked) != names or not names:
        raise Difference('make install and make dist give different programs')
    os.environ['RPELTP_LIB_DIR'] = os.path.join(unpacked, 'lib')
    peers.run([CARGO, 'test', '--manifest-path', os.path.join(unpacked, 'rust', 'Cargo.toml')], b'')
    wanted = {'VERSION', 'NOTES.md', 'bin', 'include', 'lib', 'examples', 'recordings', 'rust'}
    if set(os.listdir(unpacked)) != wanted:
        raise Difference(f'make dist: the archive has {sorted(os.listdir(unpacked))}')
    print('installed: the example by pkg-config alone, the tests of the Rust crate over the unpacked archive, '
          f'and {len(names)} programs')


def main() -> int:
    try:
        if sys.argv[1:] == ['--build']:
            build()
            return 0
        if sys.argv[1:2] == ['--installed']:
            installed(*sys.argv[2:])
            return 0
        for test in (every_length, recorded, undefined, watched, in_c_plus_plus, examples, rust):
            test()
    except (Difference, peers.Failed) as fault:
        print(fault)
        return 1
    return 0


if __name__ == '__main__':
    sys.exit(main())
