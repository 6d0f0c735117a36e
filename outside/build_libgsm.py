#!/usr/bin/env python3
"""Builds libgsm on integers, as build/libgsm.so, from Debian's source package.

    python3 outside/build_libgsm.py

Debian's own amd64 build searches its lags in floating point (USE_FLOAT_MUL) and is not the standard's codec; this one
is built without that flag on every kind of machine. apt fetches the source and checks its signature and hashes. It uses
package lists of its own: the machine's package sources with deb-src in the place of deb. The machine's own lists are
not changed. Status 1: libgsm could not be fetched or compiled."""
import ctypes
import glob
import os
import re
import shutil
import subprocess
import sys
import tarfile
from collections.abc import Sequence
from typing import Any

BUILD = os.path.join(os.path.dirname(os.path.dirname(os.path.abspath(__file__))), 'build')
LIBRARY, HEADER, NAME = (os.path.join(BUILD, f'libgsm.{ending}') for ending in ('so', 'h', 'txt'))
# the files of the codec; toast.c and the files beside it are the command line tool
CODEC = ('add', 'code', 'decode', 'gsm_create', 'gsm_decode', 'gsm_destroy', 'gsm_encode', 'gsm_explode', 'gsm_implode',
         'gsm_option', 'long_term', 'lpc', 'preprocess', 'rpe', 'short_term', 'table')
# the C types of libgsm's state, by the names in its source
TYPES: dict[str, Any] = {'word': ctypes.c_short, 'longword': ctypes.c_long, 'int': ctypes.c_int, 'char': ctypes.c_char,
                         'unsigned char': ctypes.c_ubyte}


class Missing(Exception):
    """What could not be fetched or built, in words."""


def run(words: Sequence[str], folder: str) -> tuple[int, str]:
    """The status of a command, and what it said."""
    done = subprocess.run(words, cwd=folder, stdin=subprocess.DEVNULL, stdout=subprocess.PIPE, stderr=subprocess.STDOUT,
                          text=True)
    return done.returncode, done.stdout


def machine_sources() -> tuple[list[str], str]:
    """The paths of the machine's own lists of package sources, and of its status file, as apt has them."""
    asked = {'list': 'Dir::Etc::sourcelist/f', 'parts': 'Dir::Etc::sourceparts/d', 'status': 'Dir::State::status/f'}
    _, said = run(['apt-config', 'shell', *(word for pair in asked.items() for word in pair)], '.')
    found = dict(re.findall(r"^(\w+)='(.*)'$", said, re.M))
    if set(found) != set(asked):
        raise Missing(f'apt-config does not say where its sources are: {said}')
    parts = [path for ending in ('list', 'sources') for path in glob.glob(os.path.join(found['parts'], f'*.{ending}'))]
    return [path for path in [found['list'], *parts] if os.path.isfile(path)], found['status']


def as_source(name: str, text: str) -> str:
    """The text of a list with deb-src in the place of deb, in either of apt's two forms."""
    if name.endswith('.sources'):
        return re.sub(r'^Types:.*$', 'Types: deb-src', text, flags=re.M | re.I)
    lines = [line for line in text.splitlines(True) if re.match(r'\s*deb\s', line)]
    return ''.join(re.sub(r'^\s*deb(\s)', r'deb-src\1', line) for line in lines)


def private_apt(folder: str) -> list[str]:
    """The words of an apt-get that reads and writes only below folder, and reads the machine's status file."""
    parts, paths = os.path.join(folder, 'parts'), ('parts', 'state/lists/partial', 'cache/archives/partial')
    for path in paths:
        os.makedirs(os.path.join(folder, path))
    lists, status = machine_sources()
    for number, path in enumerate(lists):
        with open(path, encoding='utf-8') as file:
            text = as_source(path, file.read())
        # numbered, since two lists may have one name
        with open(os.path.join(parts, f'{number}-{os.path.basename(path)}'), 'w', encoding='utf-8') as file:
            file.write(text)
    options = {'Dir::Etc::sourcelist': '/dev/null', 'Dir::Etc::sourceparts': parts,
               'Dir::State': os.path.join(folder, 'state'), 'Dir::State::status': status,
               'Dir::Cache': os.path.join(folder, 'cache'), 'APT::Get::AllowUnauthenticated': 'false',
               'Acquire::AllowInsecureRepositories': 'false'}
    return ['apt-get', '-q'] + [word for name, value in options.items() for word in ('-o', f'{name}={value}')]


def fetch(folder: str) -> tuple[str, str]:
    """Fetches the source package of libgsm; its version, and the path of the source as upstream gave it."""
    apt = private_apt(folder)
    # one source that does not answer must not stop the others: what counts is whether the package comes
    _, updated = run(apt + ['update'], folder)
    status, said = run(apt + ['source', '--download-only', 'libgsm'], folder)
    originals = [path for path in glob.glob(os.path.join(folder, 'libgsm_*.orig.tar.*')) if not path.endswith('.asc')]
    descriptions = glob.glob(os.path.join(folder, 'libgsm_*.dsc'))
    if status != 0 or len(originals) != 1 or len(descriptions) != 1:
        raise Missing(f"Debian's source package of libgsm could not be fetched:\n{updated}{said}")
    return os.path.basename(descriptions[0])[len('libgsm_'):-len('.dsc')], originals[0]


def compile_library(folder: str, source: str, library: str = LIBRARY, speed: Sequence[str] = ('-O2',)) -> str:
    """Compiles the codec's files; the command that did it. Debian's patches change libgsm's Makefile, tools and manual,
    and are not needed for that."""
    with tarfile.open(source) as archive:
        archive.extractall(folder)
    top = os.path.dirname(os.path.dirname(glob.glob(os.path.join(folder, '*', 'src', 'code.c'))[0]))
    shutil.copy(os.path.join(top, 'inc', 'private.h'), HEADER)
    files = [os.path.join('src', f'{name}.c') for name in CODEC]
    flags = [*speed, '-w', '-fPIC', '-shared', '-DSASR', '-DNeedFunctionPrototypes=1', '-Iinc']
    status, said = run(['gcc', *flags, '-o', library + '.new', *files], top)
    if status != 0:
        raise Missing(f'libgsm could not be compiled:\n{said}')
    os.replace(library + '.new', library)
    return ' '.join(['gcc', *flags])


def state_fields(header: str) -> list[tuple[str, Any]]:
    """The names and types of the fields of libgsm's state, as its header declares them."""
    struct = re.search(r'struct gsm_state \{(.*?)\n\};', re.sub(r'/\*.*?\*/', '', header, flags=re.S), re.S)
    if not struct:
        raise Missing("struct gsm_state is not found in libgsm's header")
    body, fields = re.sub(r'^\s*#.*$', '', struct.group(1), flags=re.M), []
    for kind, name, sizes in re.findall(r'^\s*((?:unsigned )?\w+)\s+(\w+)\s*((?:\[[^]]*\])*)\s*;', body, re.M):
        type_ = TYPES[kind]
        for size in reversed(re.findall(r'\d+', sizes)):
            type_ = type_ * int(size)
        fields.append((name, type_))
    return fields


def state_type() -> type[ctypes.Structure]:
    """libgsm's state, as its own header declares it, so that the layout of one version need not be known here."""
    with open(HEADER, encoding='latin-1') as file:
        return type('State', (ctypes.Structure,), {'_fields_': state_fields(file.read())})


def build() -> None:
    """Builds the library if it is not there."""
    if os.path.exists(LIBRARY) and os.path.exists(NAME):
        return
    folder = os.path.join(BUILD, 'libgsm')
    shutil.rmtree(folder, ignore_errors=True)
    os.makedirs(folder)
    version, source = fetch(folder)
    command = compile_library(folder, source)
    with open(NAME, 'w', encoding='utf-8') as file:
        file.write(f"libgsm {version}, Debian's source package, compiled on integers: {command}\n")
    shutil.rmtree(folder)


def main() -> int:
    try:
        build()
    except Missing as missing:
        print(missing)
        return 1
    with open(NAME, encoding='utf-8') as file:
        print(file.read(), end='')
    return 0


if __name__ == '__main__':
    sys.exit(main())
