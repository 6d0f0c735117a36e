#!/usr/bin/env python3
"""Compares c/rpeltp.h and rust/src/raw.rs with the source of the calls, field by field. Nothing else would notice a
difference.

    python3 outside/check_layout.py

Compared are: each struct's fields, their order and types; the offset of each field and the size of the struct, as C
lays it out; each call's name, parameters and result; each number that has a name; the lengths of a frame and the bounds
of a sound state; the version. Then both files are altered in many small ways, and each alteration must be noticed.
Status 1: a difference, or an alteration that was not noticed."""
from __future__ import annotations

import os
import re
import sys
from collections.abc import Callable, Iterable, Iterator
from typing import Any

ROOT = os.path.dirname(os.path.dirname(os.path.abspath(__file__)))

# the name and type of each field or parameter; the parameters and the result of a call
Fields = list[tuple[str, str]]
Call = tuple[Fields, str]
HEADER, RAW, BOUNDARY = 'c/rpeltp.h', 'rust/src/raw.rs', 'crates/boundary/src/lib.rt'
# what is exported to C: each call of BOUNDARY again
EXPORTS = 'crates/boundary_c/src/lib.rt'
# where the structs that the calls take and return are declared, and their names in C
STRUCTS = {'Encoder': 'crates/encoder/src/lib.rt', 'Decoder': 'crates/decoder/src/lib.rt',
           'EncodeAnswer': BOUNDARY, 'DecodeAnswer': BOUNDARY}
C_NAMES = {'Encoder': 'rpeltp_encoder', 'Decoder': 'rpeltp_decoder',
           'EncodeAnswer': 'rpeltp_encode_answer', 'DecodeAnswer': 'rpeltp_decode_answer'}
C_TYPES = {'int16_t': 'i16', 'int32_t': 'i32', 'uint16_t': 'u16', 'uint8_t': 'u8',
           **{name: ours for ours, name in C_NAMES.items()}}
BYTES = {'u8': 1, 'i16': 2, 'u16': 2, 'i32': 4}
# names in C for the cases of the definitions, and for the rows of the house rules, 'Refusals'
ENDINGS = {'none': 'NO_ENDING', '(some lpc.silent)': 'SILENT', '(some lpc.complete)': 'COMPLETE',
           '(some (lpc.stopped n))': 'STOPPED'}
MARKS = {'none': 'NO_MARK', '(some house.rule)': 'RULE', '(some house.found)': 'FOUND'}
ROWS = {'samples': 'REFUSED_SAMPLES', 'codewords': 'REFUSED_CODEWORDS', 'state': 'REFUSED_STATE',
        'bytes': 'REFUSED_BYTES', 'fields': 'REFUSED_FIELD', 'spare': 'REFUSED_SPARE'}


class Drift(Exception):
    """Two files that say different things, in words."""


def read(path: str) -> str:
    with open(os.path.join(ROOT, path), encoding='utf-8') as file:
        return file.read()


def same(what: str, ours: Any, theirs: Any) -> None:
    if ours != theirs:
        raise Drift(f'{what}: the source has {ours}, and the other has {theirs}')


def found(pattern: str, text: str, what: str) -> re.Match[str]:
    match = re.search(pattern, text, re.S | re.M)
    if not match:
        raise Drift(f'{what} is not found')
    return match


# ---- the source

def rust_fields(body: str) -> Fields:
    """The names and types of fields or parameters, in Rattle and in Rust."""
    pairs = re.findall(r'(?:pub )?(\w+):\s*(\[[^]]*\]|&(?:mut )?\[\w+\]|[*\w ]+?)\s*(?:,|$)', body.strip())
    return [(name, re.sub(r'\s', '', kind)) for name, kind in pairs]


def source_structs() -> dict[str, Fields]:
    """The fields of each struct of the calls; each is laid out as in C."""
    head = r'#\[repr\(C\)\]\n(?:#\[derive\([\w, ]*\)\]\n)?pub struct'
    bodies = {name: found(rf'{head} {name} \{{\n(.*?)\n\}}', read(path), f'struct {name} in {path}')
              for name, path in STRUCTS.items()}
    return {name: rust_fields(body.group(1)) for name, body in bodies.items()}


def source_calls() -> dict[str, Call]:
    """The parameters and the result of each call that is exported."""
    export = r'#\[unsafe\(no_mangle\)\]\npub extern "C" fn (\w+)\((.*?)\)\s*->\s*(\w+)'
    exported = re.findall(export, read(EXPORTS), re.S)
    return {name: (rust_fields(parameters), result) for name, parameters, result in exported}


def source_numbers() -> dict[str, int]:
    """The numbers that have names: endings and marks from the definition's cases, refusals from the rows of the house
    rules, and the lengths of a frame."""
    promise, house = read('crates/boundary/specs/Promise.antt'), read('crates/standard/specs/House.antt')
    numbers: dict[str, int] = {'DONE': 0}
    for definition, names in (('ending_number', ENDINGS), ('mark_number', MARKS)):
        cases = re.findall(rf'^{definition} (none|\(some .*\)) = (\d+)', promise, re.M)
        same(f'the cases of {definition}', [case for case, _ in cases], list(names))
        numbers.update({names[case]: int(number) for case, number in cases})
    table = re.findall(r'^(\w+)_row \w+ = \((?:not_of (\d+) )?.*, (\d+)\)$', house, re.M)
    rows = {name: (length, int(number)) for name, length, number in table}
    numbers.update({name: rows[row][1] for row, name in ROWS.items()})
    numbers.update({name.upper(): int(rows[name][0]) for name in ('samples', 'codewords', 'bytes')})
    same('the rows of octets and of samples', rows['samples'], rows['octets'])
    return numbers


def source_bounds() -> list[tuple[str, str]]:
    """The bounds of a sound state, from the text of the definitions."""
    house, lag = read('crates/standard/specs/House.antt'), read('crates/standard/specs/LongTerm.antt')
    sound = found(r'^sound_coder c =\n(.*?)\n\n', house, 'sound_coder').group(1)
    pairs = re.findall(r'within \(neg (\d+)\) \(pos (\d+)\)', sound)
    lags = found(r'is_lag .*?within \(pos (\d+)\) \(pos (\d+)\)', lag, 'is_lag').groups()
    return [(f'-{low}', high) for low, high in pairs] + [(lags[0], lags[1])]


# ---- the layout that C gives to fields

def element(kind: str) -> tuple[str, int]:
    """The type of the elements of a field, and how many there are."""
    match = re.fullmatch(r'\[(\w+);(\d+)\]', kind)
    return (match.group(1), int(match.group(2))) if match else (kind, 1)


def laid_out(name: str, structs: dict[str, Fields]) -> tuple[dict[str, int], int, int]:
    """The offset of each field of a struct, its size, its alignment. Padding is refused, since nothing clears it."""
    places: dict[str, int] = {}
    at, most = 0, 1
    for field, kind in structs[name]:
        one, count = element(kind)
        size, align = laid_out(one, structs)[1:] if one in structs else (BYTES[one], BYTES[one])
        if at % align:
            raise Drift(f'struct {name} has padding before {field}')
        places[field], at, most = at, at + size * count, max(most, align)
    if at % most:
        raise Drift(f'struct {name} has padding at its end')
    return places, at, most


# ---- the header

def without_comments(header: str) -> str:
    return re.sub(r'/\*.*?\*/', '', header, flags=re.S)


def c_type(kind: str, count: str | None = None) -> str:
    ours = C_TYPES.get(kind, kind)
    return f'[{ours};{count}]' if count else ours


def header_structs(text: str) -> dict[str, Fields]:
    structs = {}
    for body, name in re.findall(r'typedef struct \{(.*?)\} (\w+);', text, re.S):
        fields = re.findall(r'(\w+) (\w+)(?:\[(\d+)\])?;', body)
        structs[C_TYPES.get(name, name)] = [(field, c_type(kind, count)) for kind, field, count in fields]
    return structs


def header_parameters(text: str) -> Fields:
    """A pointer and the length of the same name are a slice."""
    words = [re.sub(r'\s+', ' ', word).strip() for word in text.split(',')]
    parameters: Fields = []
    while words and words != ['void']:
        pointer = re.fullmatch(r'(const )?(\w+) \*(\w+)', words[0])
        if not pointer:
            kind, name = words.pop(0).split(' ')
            parameters.append((name, c_type(kind)))
            continue
        const, kind, name = pointer.groups()
        same(f'the length after {name}', f'size_t {name}_len', words[1] if words[1:] else None)
        parameters.append((name, f'&{"" if const else "mut"}[{c_type(kind)}]'))
        words = words[2:]
    return parameters


def header_calls(text: str) -> dict[str, Call]:
    declared = re.findall(r'^(\w+) (rpeltp_\w+)\(([^)]*)\);', text, re.M)
    return {name: (header_parameters(parameters), c_type(result)) for result, name, parameters in declared}


def header_numbers(text: str) -> dict[str, int]:
    return {name: int(number) for name, number in re.findall(r'^#define RPELTP_(\w+) (\d+)\b', text, re.M)}


def header_asserted(text: str) -> tuple[dict[str, int], list[tuple[str, str, int]]]:
    """The sizes and offsets that the header asserts."""
    sizes = {C_TYPES[name]: int(size) for name, size in re.findall(r'^RPELTP_SIZE\((\w+), (\d+)\);', text, re.M)}
    places = re.findall(r'^RPELTP_PLACE\((\w+), (\w+), (\d+)\);', text, re.M)
    return sizes, [(C_TYPES[name], field, int(place)) for name, field, place in places]


def check_header(header: str) -> None:
    """Raises Drift unless the header says what the source says."""
    text, structs = without_comments(header), source_structs()
    for name in structs:
        same(f'the fields of {C_NAMES[name]}', structs[name], header_structs(text).get(name))
    same('the structs', sorted(structs), sorted(header_structs(text)))
    same('the calls', source_calls(), header_calls(text))
    same('the numbers', source_numbers(), header_numbers(text))
    laid = {name: laid_out(name, structs) for name in structs}
    sizes, places = header_asserted(text)
    same('the sizes asserted', {name: size for name, (_, size, _) in laid.items()}, sizes)
    same('the offsets asserted', [(name, *place) for name in laid for place in laid[name][0].items()], places)
    for name, (_, size, _) in laid.items():
        what = f'the size of {C_NAMES[name]}, {size} bytes, in the comment above it'
        found(rf'\b{size} bytes\b[^}}]*\}} {C_NAMES[name]};', header, what)
    for low, high in source_bounds():
        found(rf'from\s+{low}\s+to\s+{high}\b', header, f'the bounds {low} to {high} of a sound state')
    version = found(r'^#define RPELTP_VERSION "([^"]*)"', text, 'the version').group(1)
    same('the version', read('VERSION').strip(), version)


# ---- the declarations in Rust

def as_rust(fields: Iterable[tuple[str, str]]) -> Iterator[tuple[str, str]]:
    """Parameters with a pointer and a length for each slice."""
    for name, kind in fields:
        slice_ = re.fullmatch(r'&(mut)?\[(\w+)\]', kind)
        if slice_:
            yield name, f'*{slice_.group(1) or "const"}{slice_.group(2)}'
            yield f'{name}_len', 'usize'
        else:
            yield name, kind


def check_raw(raw: str) -> None:
    """Raises Drift unless the declarations in Rust say what the source says."""
    text = re.sub(r'//.*', '', raw)
    structs = re.findall(r'#\[repr\(C\)\]\npub struct (\w+) \{\n(.*?)\n\}', text, re.S)
    same('the structs in Rust', source_structs(), {name: rust_fields(body) for name, body in structs})
    declared = re.findall(r'fn (rpeltp_\w+)\((.*?)\)\s*->\s*(\w+);', text, re.S)
    calls = {name: (list(as_rust(parameters)), result) for name, (parameters, result) in source_calls().items()}
    same('the calls in Rust', calls, {name: (rust_fields(parameters), result) for name, parameters, result in declared})
    version = found(r'^version = "([^"]*)"', read('rust/Cargo.toml'), 'the version').group(1)
    same('the version in Rust', read('VERSION').strip(), version)


# ---- that a difference is noticed

def altered(header: str) -> Iterator[tuple[str, str]]:
    """What is altered, and the header with that one alteration."""
    for place in re.finditer(r'^    (\w+ \w+(?:\[\d+\])?;)(?=([^\n]*\n    )(\w+ \w+(?:\[\d+\])?;))', header, re.M):
        first, between, second = place.groups()
        exchanged = second + between + first
        yield f'{first} and {second} exchanged', header[:place.start(1)] + exchanged + header[place.end(3):]
    for place in re.finditer(r'^#define RPELTP_\w+ (\d+)\b|^RPELTP_(?:SIZE|PLACE)\(.*?(\d+)\);', header, re.M):
        at, end = place.span(1 if place.group(1) else 2)
        yield f'{place.group()} one more', header[:at] + str(int(header[at:end]) + 1) + header[end:]
    for place in re.finditer(r'^RPELTP_(?:SIZE|PLACE)\(.*\n|^\w+ rpeltp_\w+\([^)]*\);\n', header, re.M):
        yield f'{place.group().split("(")[0]} left out', header[:place.start()] + header[place.end():]
    for place in re.finditer(r'const (?=u?int)', header):
        yield 'a const left out', header[:place.start()] + header[place.end():]
    for word, other in (('int16_t', 'uint16_t'), ('uint8_t', 'int8_t'), ('size_t', 'int'), ('int32_t', 'int64_t')):
        for place in re.finditer(rf'\b{word}\b(?=[^\n]*[;,)])', header):
            yield f'{word} as {other}', header[:place.start()] + other + header[place.end():]


def altered_raw(raw: str) -> Iterator[tuple[str, str]]:
    """What is altered, and the declarations in Rust with that one alteration."""
    for place in re.finditer(r'^    pub (\w+: [^,\n]+)(?=(,(?:\n    //[^\n]*)*\n    pub )(\w+: [^,\n]+),)', raw, re.M):
        first, between, second = place.groups()
        exchanged = second + between + first
        yield f'{first} and {second} exchanged', raw[:place.start(1)] + exchanged + raw[place.end(3):]
    words = {'*const': '*mut', '*mut': '*const', 'usize': 'u32', '#[repr(C)]': '', 'pub fn': 'pub fn no_'}
    for word, other in words.items():
        for place in re.finditer(re.escape(word), raw):
            yield f'{word} as {other}', raw[:place.start()] + other + raw[place.end():]


def seen(check: Callable[[str], None], text: str) -> bool:
    """Whether the check notices an alteration."""
    try:
        check(text)
    except (Drift, KeyError, ValueError):
        return True
    return False


def main() -> int:
    for path, check, alter in ((HEADER, check_header, altered), (RAW, check_raw, altered_raw)):
        text = read(path)
        try:
            check(text)
        except Drift as drift:
            print(f'layout: {path}: {drift}')
            return 1
        made = list(alter(text))
        missed = [what for what, other in made if not seen(check, other)]
        if missed or not made:
            print(f'layout: {path}: not noticed: {missed}')
            return 1
        print(f'layout: {path} says what the source says; each of {len(made)} alterations is noticed')
    return 0


if __name__ == '__main__':
    sys.exit(main())
