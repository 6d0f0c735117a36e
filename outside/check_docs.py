#!/usr/bin/env python3
"""Checks what can be checked of the documents: names, links, lists that must be complete, widths, citations, paths.

    python3 outside/check_docs.py [ROOT]      ROOT is a checkout of the repository; by default the one of this file

Names: every name in backticks in README.md, CONTRIBUTING.md, NOTES.md, docs/*.md and outside/README.md must exist.
    One word in backticks is always looked up. Of several words those are looked up that look like names: with an
    underscore or a hyphen inside, with a capital after a small letter, with `::`, or a path.
    `crate::function` and `Type::function` must be defined in that crate, or for that type.
    A word in capitals, as in `crates/NAME/stdout`, stands for any name: some file must match.
    Words of others (Rattle, Debian, libgsm) are listed in OTHERS below, each group with its owner.
Paths in the text or in code blocks of these documents that begin with a folder of the repository must exist.
Links between documents, and their anchors, must exist.
Lists: every crate of crates.txt is in docs/ROOMS.md; every `pub fn` is in docs/PROMISES.md; every sub-clause that a
    heading in crates/standard/specs names has a row in docs/CLAUSES.md.
Widths: 100 columns in .md, but for tables, images and fenced code; 140 in .antt; 120 in other sources and scripts.
    Imports, and what outside/write_trials.py writes, may be wider.
Citations: the house rules, the requests and the standard are cited by name, not by the numbers of their old pages.
Sources: a file of the repository that a comment or a message names must exist.
Machine paths: no file names a path that exists on one machine only.

Each finding is a line `path:line: what`. Status 1: there are findings."""
from __future__ import annotations

import fnmatch
import os
import re
import subprocess
import sys
from collections.abc import Callable, Iterable, Iterator
from dataclasses import dataclass, field

# path, line and what is wrong
Finding = tuple[str, int, str]

DOCUMENTS = ('README.md', 'CONTRIBUTING.md', 'NOTES.md', 'docs/*.md', 'outside/README.md')
WIDTHS = {'.md': 100, '.rt': 120, '.py': 120, '.rs': 120, '.c': 120, '.h': 120, '.sh': 120, '.antt': 140, 'script': 120}
# files that hold data, not sentences: what programs read and write, pictures, tables, what cargo and rt write
DATA = ('outside/vectors/*', 'recordings/*.raw', 'recordings/*.al', '*.svg', '*.tsv', '*.lock', 'crates/*/stdin',
        'crates/*/stdout', 'crates/*/args', 'crates/*/data/*')

# what commands make, and what is in no checkout: paths below these folders, and what make dist puts into the archive
MADE = ('target', 'out', 'build')
ARCHIVED = ('include/rpeltp.h', 'lib/librpeltp.a', 'lib/pkgconfig/rpeltp.pc', 'examples', 'bin', 'librpeltp.a',
            'rpeltp.pc', 'example', 'rpeltp-')
# what the lister writes where the recursion stopped
STOPS = {f'stop{n}' for n in range(1, 9)}
# words in capitals that stand for any name
PLACEHOLDERS = {'NAME', 'CRATE', 'LABEL', 'TYPE', 'FILE', 'TARGET', 'FOLDER', 'F', 'N', 'S', 'X', 'Y', 'D', 'DIR',
                'ARCHIVE', 'VECTORS', 'ROOT', 'MODE', 'PROGRAM', 'WORDS', 'PATH', 'COMMAND', 'STAGE', 'DEFINITION'}
# the commands of rt
RT = set('''
    ci must-fail selftest doc version help new check verdict lib run test try fmt tidy plant all expand lemma
    '''.split())
# Words of others, which no file here defines.
OTHERS = {
    # words of the language of Rattle, of its types and attributes, and of its clauses
    'Rattle, code': '''
        ghost use pub fn struct enum impl const let mut return loop while for if else self repr Copy requires ensures
        result now old new tactic auto i8 i16 i32 i64 u8 u16 u32 u64 usize bool
        '''.split(),
    # words of its specs and proofs, its tactics
    'Rattle, proofs': 'unfoldable unfolding abbrev record where refl omega search grind rw cc simp'.split(),
    # parts of the names that it gives to goals, places and what is known there, as in c.loop-k.invariant; the keys of
    # an .edit file
    'Rattle, goals': '''
        goal. args ranges fn initial branch type_inv invariant overflow_add-x f-requires if-n-lt15 Else-n-lt15 if-x-b
        then-x-b else-x-b loop-k m-bits m-is w After-f At-loop-k bounds-s-k decreases-loop-i now-1 x-1 file: old: new:
        '''.split(),
    # the toolchain: its programs, options and variables, what they print, its library and its guides
    'Rattle, kit': '''
        Rattle rattle rt --allow-holes --generated --start --only --anew logic= axioms FitsSigned libc write_all
        rattle_errno IsAlwaysCallable rattle/FIRST_PROOFS.md rattle/SHORTER_PROOFS.md
        '''.split(),
    # names in the standard's clause 4 that nothing here is called after
    'the standard': 'L_add L_temp L_result'.split(),
    # Debian: commands and packages
    'Debian': 'make python3 gcc g++ cargo rustc pkg-config valgrind mypy libspandsp2 toast untoast apt clang'.split(),
    # other codecs, and the ending of their files
    'codecs': 'libgsm spandsp libavcodec gsm'.split(),
    # the libraries of C and of Rust
    'C and Rust': '''
        memcpy memset std core no_std size_t From Option Result from_fn iter iter_mut enumerate chunks_exact try_from
        unwrap_or_else unsigned_abs arrayvec itoa
        '''.split(),
}
ALLOWED = {word for words in OTHERS.values() for word in words}


# ---- the files

def tracked(root: str) -> list[str]:
    """The paths of the files that git tracks, and of new ones that it does not ignore. Without git: of all files except
    those that commands make."""
    command = ['git', '-C', root, 'ls-files', '--cached', '--others', '--exclude-standard', '-z']
    try:
        done = subprocess.run(command, stdout=subprocess.PIPE, stderr=subprocess.DEVNULL, text=True)
        listed = done.stdout.split('\0') if done.returncode == 0 else []
    except OSError:
        listed = []
    if not listed:
        for folder, folders, names in os.walk(root):
            folders[:] = [name for name in folders if name not in (*MADE, '.git', '__pycache__', '.mypy_cache')]
            listed += [os.path.relpath(os.path.join(folder, name), root) for name in names]
    return sorted({path for path in listed if path and os.path.isfile(os.path.join(root, path))})


def matches(path: str, patterns: Iterable[str]) -> bool:
    return any(fnmatch.fnmatchcase(path, pattern) for pattern in patterns)


def is_document(path: str) -> bool:
    return any(fnmatch.fnmatchcase(path, pattern) and path.count('/') == pattern.count('/') for pattern in DOCUMENTS)


def read(root: str, path: str) -> str | None:
    """The text of a file; None, if it is data or is not text."""
    if matches(path, DATA):
        return None
    with open(os.path.join(root, path), 'rb') as file:
        raw = file.read()
    try:
        return None if b'\0' in raw else raw.decode('utf-8')
    except UnicodeDecodeError:
        return None


def line_of(text: str, index: int) -> int:
    return text.count('\n', 0, index) + 1


# ---- names that files define

def items_of(text: str) -> set[str]:
    """The functions, types, constants and modules of a .rt or .rs file."""
    return set(re.findall(r'\b(?:fn|struct|enum|const|static|mod|trait|type)\s+(\w+)', re.sub(r'//.*', '', text)))


def rt_names(text: str) -> set[str]:
    """What a .rt file defines: its items, parameters, fields, variants; and what it imports."""
    names, code = items_of(text), re.sub(r'//.*', '', text)
    names.update(re.findall(r'(?:\bpub\s+|[({,]\s*|^\s*)(?:mut\s+)?(\w+)\s*:(?!:)', code, re.M))
    for _, variants in enums(text):
        names |= variants
    return names | imported(text)


def enums(text: str) -> Iterator[tuple[str, set[str]]]:
    """The enums of a .rt or .rs file, with their variants."""
    for name, body in re.findall(r'\benum\s+(\w+)\s*\{(.*?)\n\}', re.sub(r'//.*|#\[.*', '', text), re.S):
        yield name, set(re.findall(r'^\s*(\w+)', body, re.M))


def imported(text: str) -> set[str]:
    """The names that a file imports: `use a.b.{c, d}`, `use a.b as c`. The check of the proofs finds each of them."""
    names: set[str] = set()
    use = r'^\s*(?:ghost\s+)?use\s+([^\s{;]+?)\.?(?:\{([^}]*)\})?(?:\s+as\s+(\S+?))?;?$'
    for path, braces, other in re.findall(use, text, re.M):
        names.update(word for word in re.split(r'[,\s]+', braces) if word)
        names.update({other} if other else set())
        names.update(re.split(r'\.|::', path)[-1:])
    return names


def proof_names(text: str) -> set[str]:
    """What a proof file defines: names with a signature at the start of a line; and what it imports."""
    return antt_names(re.sub(r'^[ \t].*', '', text, flags=re.M))


def antt_names(text: str) -> set[str]:
    """What an .antt file defines: names with a signature, `name : ..`, at the start of a line or further in, as the
    fields of a record, constructors and what a module has are; records, types, modules, rulesets; and what it
    imports."""
    names, code = imported(text), re.sub(r'--.*', '', text)
    own = {'pub', 'unfoldable', 'abbrev', 'opaque', 'constructor', 'field'}
    words = r'((?:(?:pub|unfoldable|abbrev|opaque|constructor|field|\|)\s+)*)((?:[^\s:=(){}.;|]+ +)+):(?:\s|$)'
    for modifiers, defined in re.findall(rf'^[ \t]*{words}', code, re.M):
        named = [word for word in defined.split() if word not in own]
        # several names with one type stand at the start of a line, or are fields
        names.update(named if len(named) == 1 or modifiers else named[:1])
    names.update(re.findall(r'\b(?:record|data|module|ruleset)\s+([^\s:(){}]+)', code))
    return names - {'_'}


def rust_names(text: str) -> set[str]:
    names = items_of(text) | set(re.findall(r'^\s*(?:pub\s+)?(\w+)\s*:(?!:)', re.sub(r'//.*', '', text), re.M))
    for _, variants in enums(text):
        names |= variants
    return names


def c_names(text: str) -> set[str]:
    """Every identifier of a header, outside its comments."""
    return set(re.findall(r'[A-Za-z_]\w*', re.sub(r'/\*.*?\*/|//[^\n]*', ' ', text, flags=re.S)))


def python_names(text: str) -> set[str]:
    names = set(re.findall(r'^\s*(?:def|class)\s+(\w+)', text, re.M))
    names.update(re.findall(r"environ(?:\.get\(|\[)'(\w+)'", text))
    for words in re.findall(r'^([A-Z]\w*(?:, [A-Z]\w*)*)(?::[^=\n]*)? = ', text, re.M):
        names.update(words.split(', '))
    return names


def cargo_names(text: str) -> set[str]:
    return set(re.findall(r'^name = "(\w+)"', text, re.M))


def make_targets(text: str) -> set[str]:
    return {word for line in re.findall(r'^([\w./ -]+?)\s*:(?!=)', text, re.M) for word in line.split()}


def make_names(text: str) -> set[str]:
    """Targets and variables of a Makefile."""
    return make_targets(text) | set(re.findall(r'^(\w+)\s*[:?]?=', text, re.M))


def shell_names(text: str) -> set[str]:
    """Functions of a script, and the variables that it takes from the environment."""
    return set(re.findall(r'^(\w+)\(\)', text, re.M)) | set(re.findall(r'\$\{([A-Z_]+)', text))


def listing_words(text: str) -> set[str]:
    """The words that the lister writes: strings in the definition of the listing."""
    return {word for string in re.findall(r'"([^"\n]*)"', text) for word in re.split(r'\\[tn]|\s', string) if word}


# which files define names, and what reads them
READERS: tuple[tuple[str, Callable[[str], set[str]]], ...] = (
    ('crates/*.rt', rt_names), ('crates/*/specs/*.antt', antt_names), ('crates/*/proofs/*.antt', proof_names),
    ('rust/*.rs', rust_names), ('rust/Cargo.toml', cargo_names), ('c/rpeltp.h', c_names),
    ('outside/tests/*', lambda text: set()), ('outside/*.py', python_names), ('bench/*.py', python_names),
    ('Makefile', make_names))
# files whose names without their endings are names: of definitions, of wrong answers, of vectors
NAMED = ('crates/*/specs/*.antt', 'crates/*/must-fail/*.edit', 'outside/vectors/*')


def defined_in(path: str, text: str) -> set[str]:
    """The names that a file defines."""
    reader = next((reader for pattern, reader in READERS if fnmatch.fnmatchcase(path, pattern)), None)
    return reader(text) if reader else shell_names(text) if text.startswith('#!/bin/sh') else set()


def crate_functions(text: str) -> Iterator[tuple[str | None, str, bool]]:
    """Every function of a .rt file: the type of its impl, or None; its name; whether it is public."""
    owner, depth = None, 0
    for line in re.sub(r'//.*', '', text).split('\n'):
        found = re.match(r'impl\s+(\w+)', line)
        if found and depth == 0:
            owner = found.group(1)
        for visible, name in re.findall(r'(\bpub\s+)?(?:ghost\s+)?(?:extern\s+"C"\s+)?\bfn\s+(\w+)', line):
            yield owner, name, bool(visible)
        depth += line.count('{') - line.count('}')
        if depth <= 0:
            depth = 0
            owner = owner if found and '{' not in line else None


@dataclass
class Names:
    """What there is in a checkout."""
    files: set[str] = field(default_factory=set)
    folders: set[str] = field(default_factory=set)
    words: set[str] = field(default_factory=set)
    crates: list[str] = field(default_factory=list)
    # functions and types of each crate; functions and variants of each type
    of_crate: dict[str, set[str]] = field(default_factory=dict)
    of_type: dict[str, set[str]] = field(default_factory=dict)
    # crate, type or None, name of each public function, and where it is
    public: list[tuple[str, str | None, str, str, int]] = field(default_factory=list)
    options: set[str] = field(default_factory=set)
    targets: set[str] = field(default_factory=set)
    requests: set[str] = field(default_factory=set)

    def basename(self, name: str) -> bool:
        return any(path.rsplit('/', 1)[-1] == name for path in self.files)

    def path(self, path: str, folder: str = '') -> bool:
        """Whether a path exists: from the root, from the document's folder, below crates/, or below any crate. A part
        in capitals stands for any name."""
        wanted = path.rstrip('/').removeprefix('./')
        if wanted.split('/')[0] in MADE or wanted in ARCHIVED or wanted in ('', '.', '..'):
            return True
        pattern = '/'.join(re.sub(r'\b[A-Z]{1,}\b(?!\.md)', '*', part) for part in wanted.split('/'))
        pattern = wanted if wanted in self.files | self.folders else re.sub(r'\.\.$', '*', pattern)
        for start in ('', f'{folder}/' if folder else '', 'crates/', 'crates/*/', 'docs/', 'outside/vectors/'):
            if any(fnmatch.fnmatchcase(known, start + pattern) and known.count('/') == (start + pattern).count('/')
                   for known in self.all_paths()):
                return True
        # the files of a vector have one name and several endings
        return any(known.startswith(f'{wanted}.') for known in self.files)

    def all_paths(self) -> set[str]:
        return self.files | self.folders


def gather(root: str) -> Names:
    """Reads what every file of a checkout defines."""
    names = Names()
    names.files = set(tracked(root))
    names.folders = {'/'.join(parts[:i]) for parts in (path.split('/') for path in names.files)
                     for i in range(1, len(parts))}
    names.words = {path.rsplit('/', 1)[-1] for path in names.folders if len(path.split('/')) <= 2} | STOPS
    names.words |= {path.split('/')[2] for path in names.folders if re.fullmatch(r'crates/\w+/[\w-]+', path)}
    for path in sorted(names.files):
        if matches(path, NAMED):
            names.words.add(path.rsplit('/', 1)[-1].split('.')[0])
        text, ending = read(root, path), os.path.splitext(path)[1]
        if text is None:
            continue
        defined = defined_in(path, text)
        names.words |= defined
        if path == 'Makefile':
            names.targets = make_targets(text)
        if path.startswith('crates/') and ending == '.rt':
            names.of_crate.setdefault(path.split('/')[1], set()).update(items_of(text))
        if path.endswith('specs/Listing.antt') or path.endswith('/stdout'):
            names.words |= listing_words(text)
        if ending in ('.py', '.sh') or text.startswith('#!') or path == 'Makefile':
            names.options |= set(re.findall(r"(?<![\w-])--?[a-z][a-z-]*", text))
        if ending == '.rt':
            for type_, name, visible in crate_functions(text):
                if type_:
                    names.of_type.setdefault(type_, set()).add(name)
                if visible and path.startswith('crates/'):
                    line = next(i for i, each in enumerate(text.split('\n'), 1) if re.search(rf'\bfn {name}\b', each))
                    names.public.append((path.split('/')[1], type_, name, path, line))
        if ending in ('.rt', '.rs') and defined:
            for owner, variants in enums(text):
                names.of_type.setdefault(owner, set()).update(variants)
        if ending == '.rs' and defined:
            for owner, body in re.findall(r'^impl(?:<[^>]*>)?\s+(\w+).*?\{(.*?)^\}', text, re.S | re.M):
                names.of_type.setdefault(owner, set()).update(re.findall(r'\bfn (\w+)', body))
    if 'crates.txt' in names.files:
        names.crates = re.findall(r'^(\w+)(?: \w+)?:', read(root, 'crates.txt') or '', re.M)
        names.words |= set(names.crates)
    if 'docs/REQUESTS.md' in names.files:
        names.requests = set(re.findall(r'\bW-\d+\b', read(root, 'docs/REQUESTS.md') or ''))
    return names


# ---- (a) the names in a document

def without_fences(text: str) -> str:
    """The text with its fenced code blank, line for line."""
    return re.sub(r'^```.*?^```[^\n]*', lambda block: re.sub(r'[^\n]', '', block.group()), text, flags=re.S | re.M)


def without_code(text: str) -> str:
    """The text with its fenced and its indented code blank, line for line. Code is indented by four columns more than
    the text of the list that it belongs to, and follows an empty line."""
    lines, offset, blank, code = without_fences(text).split('\n'), 0, True, False
    for number, line in enumerate(lines):
        indent = len(line) - len(line.lstrip())
        if not line.strip():
            blank = True
            continue
        item = re.match(r'\s*(?:[-*+]|\d+[.)])\s+', line)
        if blank and indent < offset and not item:
            offset = 0
        code = indent >= offset + 4 and (blank or code)
        if code:
            lines[number] = ''
        elif item:
            offset = item.end()
        blank = False
    return '\n'.join(lines)


def spans(text: str) -> Iterator[tuple[int, str]]:
    """What is in backticks, with its line; a span may go on in the next line, not past an empty one."""
    prose = without_code(text)
    for found in re.finditer(r'(?<!`)(`+)((?:(?!\n\s*\n).)+?)(?<!`)\1(?!`)', prose, re.S):
        yield line_of(prose, found.start()), ' '.join(found.group(2).split())


def looks_like_name(word: str) -> bool:
    """Whether a word of several is to be looked up: an underscore or a hyphen inside, or a capital after a small
    letter."""
    return bool(re.search(r'[^\W_][_-][^\W_]|[a-z][A-Z]', word)) and not re.fullmatch(r'[\d-]+', word)


def qualified(names: Names, word: str) -> str | None:
    """What is wrong with `crate::name`, `Type::function`, `Type::variant` or `crate::Type::function`."""
    *path, last = word.split('::')
    owner = path[-1]
    if owner in OTHERS['Rattle, kit']:
        return None
    if len(path) > 1 and (path[0] not in names.of_crate or owner not in names.of_crate[path[0]]):
        return f'there is no {"::".join(path)}'
    if owner in names.of_type:
        return None if last in names.of_type[owner] else f'{owner} has no {last}'
    if owner in names.of_crate:
        return None if last in names.of_crate[owner] else f'crate {owner} has no {last}'
    return f'there is no crate or type {owner}'


NUMBER = re.compile(r'[-+]?[\d.,]+(?:[iu]\d+|usize|[a-z])?|0x[0-9a-fA-F]+|[0-9A-F]{2}')
FILE = re.compile(r'\.(?:rt|antt|md|py|rs|c|h|sh|txt|tsv|svg|edit|raw|al|cod|out|pack|lst|toml|json|in|a|pc)$')


def known(names: Names, word: str) -> bool:
    if word in names.words or word in ALLOWED or word in PLACEHOLDERS or word in names.requests or word in ARCHIVED:
        return True
    # the beginning of several names, as in law_.. or law_
    if re.fullmatch(r'\w+(?:_|\.\.+)', word):
        return any(each.startswith(word.rstrip('.')) for each in names.words)
    return False


def wrong_word(names: Names, word: str, folder: str = '') -> str | None:
    """What is wrong with one word, if anything."""
    word = word.rstrip('/') if word.count('/') > 1 else word
    if not re.search(r'[^\W\d_]', word) or NUMBER.fullmatch(word):
        return None
    if word.startswith('-'):
        return None if word in names.options | ALLOWED else f'no script has the option {word}'
    if '::' in word:
        return qualified(names, word)
    if '/' in word:
        return None if names.path(word, folder) or word in ALLOWED else f'there is no file or folder {word}'
    if known(names, word) or known(names, word.strip('«»')) or names.basename(word):
        return None
    if re.fullmatch(r'\.\w+', word):
        ending = any(path.endswith(word) for path in names.files)
        return None if ending or known(names, word[1:]) else f'no file ends in {word}'
    if FILE.search(word):
        return None if names.basename(word) or names.path(word) else f'there is no file {word}'
    if re.fullmatch(r'W-\d+', word):
        return f'docs/REQUESTS.md has no {word}'
    parts = [part for part in re.split(r'[.=·«»()\[\]]', word) if part]
    if len(parts) > 1:
        return next((wrong for wrong in (wrong_word(names, part, folder) for part in parts) if wrong), None)
    return f'nothing here is called {word}'


def wrong_in_span(names: Names, span: str, folder: str = '') -> Iterator[str]:
    """What is wrong with what stands in one pair of backticks."""
    call = re.fullmatch(r'([\w:]+)\(([\w\s,&]*)\)', span)
    if call:
        arguments = [word for word in re.split(r'[\s,&]+', call.group(2)) if word]
        found = (wrong_word(names, word, folder) for word in (call.group(1), *arguments))
    elif not re.search(r'\s', span):
        found = (wrong_word(names, word, folder) for word in [span if span in ALLOWED else span.strip('&#(){}[],;:')])
    else:
        found = (wrong_among(names, word, folder) for word in commands(names, span))
    yield from (wrong for wrong in found if wrong)


def commands(names: Names, span: str) -> list[str]:
    """The words of a span of several words. The target of make and the command of rt are marked, so that they are
    looked up."""
    words = [word.rstrip(':') for word in re.split(r'[\s(){}\[\],;"\'<>|⌜⌝⟦⟧⟨⟩]+', span)]
    if words[0] == 'make' and len(words) > 1 and '=' not in words[1] and not words[1].startswith('-'):
        words[1] = f'make {words[1]}'
    if span.startswith('rt ') and len(words) > 1:
        words[1] = f'rt {words[1]}'
    return [word for word in words if word]


def wrong_among(names: Names, word: str, folder: str) -> str | None:
    """What is wrong with one of several words; a word that does not look like a name is not looked up."""
    command, _, rest = word.partition(' ')
    if rest:
        right = rest in names.targets if command == 'make' else rest in RT
        return None if right or rest in PLACEHOLDERS else f'{command} has no {rest}'
    if '/' in word and not word.startswith('/') and word.split('/')[0] in names.folders:
        return wrong_word(names, word, folder)
    if '::' in word:
        return wrong_word(names, word, folder)
    if word.startswith('--'):
        return wrong_word(names, word.split('=')[0], folder)
    parts = [part for part in re.split(r'[.=/·«»:]', word) if looks_like_name(part)]
    return next((wrong for wrong in (wrong_word(names, part, folder) for part in parts) if wrong), None)


def paths_in(names: Names, text: str) -> Iterator[tuple[int, str]]:
    """Paths in the text and in code blocks that begin with a folder of the repository."""
    tops = '|'.join(sorted(re.escape(path) for path in names.folders if '/' not in path))
    for found in re.finditer(rf'(?<![\w./$~}}{{-])(?<!\]\()(?:{tops})/[\w./-]*[\w/]', text):
        yield line_of(text, found.start()), found.group()


def check_names(names: Names, path: str, text: str) -> Iterator[Finding]:
    folder = os.path.dirname(path)
    found: set[tuple[int, str]] = set()
    for line, span in spans(text):
        found.update((line, wrong) for wrong in wrong_in_span(names, span, folder))
    archive = path == 'NOTES.md'
    for line, word in paths_in(names, text):
        if not names.path(word, folder) and not (archive and word.split('/')[0] in ('bin', 'rust', 'examples')):
            found.add((line, f'there is no file or folder {word}'))
    yield from ((path, line, what) for line, what in sorted(found))


# ---- (b) links

def slug(heading: str) -> str:
    """The anchor of a heading."""
    plain = re.sub(r'\[([^]]*)\]\([^)]*\)', r'\1', heading).replace('`', '')
    return re.sub(r'\s', '-', re.sub(r'[^\w\s-]', '', plain.strip().lower()))


def anchors(text: str) -> set[str]:
    found: dict[str, int] = {}
    made = set()
    for heading in re.findall(r'^#{1,6} +(.*?)\s*#*$', without_code(text), re.M):
        name = slug(heading)
        count = found.get(name, 0)
        found[name] = count + 1
        made.add(f'{name}-{count}' if count else name)
    return made | set(re.findall(r'<a (?:id|name)="([^"]+)"', text))


def check_links(names: Names, texts: dict[str, str], path: str, text: str) -> Iterator[Finding]:
    prose = re.sub(r'`[^`\n]*`', lambda code: ' ' * len(code.group()), without_code(text))
    for found in re.finditer(r'\]\(([^)\s]+)(?:\s+"[^"]*")?\)', prose):
        target, line = found.group(1), line_of(prose, found.start())
        if re.match(r'[a-z]+:', target):
            continue
        file, _, anchor = target.partition('#')
        aimed = os.path.normpath(os.path.join(os.path.dirname(path), file)) if file else path
        if aimed not in names.all_paths():
            yield path, line, f'the link to {target} leads to no file'
        elif anchor and anchor not in anchors(texts.get(aimed, '')):
            yield path, line, f'{aimed} has no heading for #{anchor}'


# ---- (c) lists that must be complete

def check_rooms(names: Names, text: str) -> Iterator[Finding]:
    listed = {span for _, span in spans(text)}
    for crate in names.crates:
        if crate not in listed:
            yield 'docs/ROOMS.md', 1, f'crate {crate} is not listed'


def check_promises(names: Names, text: str) -> Iterator[Finding]:
    """A function of a crate is listed as `crate::function`, one of a type as `Type::function`, a call for C by its
    name."""
    listed = {span.split('(')[0] for _, span in spans(text)}
    for crate, owner, name, path, line in names.public:
        forms = {f'{owner}::{name}', f'{crate}::{owner}::{name}'} if owner else {f'{crate}::{name}'}
        if name.startswith('rpeltp_'):
            forms.add(name)
        if not forms & listed:
            yield path, line, f'docs/PROMISES.md does not list {sorted(forms)[0]}'


def heading_clauses(text: str) -> Iterator[tuple[int, str]]:
    """The sub-clauses at the head of a comment: `-- ---- 4.2.5 ..`, `-- 4.2.1 to 4.2.3: ..`."""
    for number, line in enumerate(text.split('\n'), 1):
        heading = re.match(r'-- (?:---- )?((?:\d+(?:\.\d+)+(?:, | and | to )?)+)', line)
        for clause in re.findall(r'\d+(?:\.\d+)+', heading.group(1) if heading else ''):
            yield number, clause


def check_clauses(texts: dict[str, str]) -> Iterator[Finding]:
    cells = re.findall(r'^\|([^|]*)\|', texts.get('docs/CLAUSES.md', ''), re.M)
    rows = {clause for cell in cells for clause in re.findall(r'(?<![\w.])\d+(?:\.\d+)+(?![\w.]*\d)', cell)}
    for path, text in sorted(texts.items()):
        if path.startswith('crates/standard/specs/') and path.endswith('.antt'):
            for line, clause in heading_clauses(text):
                if clause not in rows:
                    yield path, line, f'docs/CLAUSES.md has no row for {clause}'


# ---- (d) widths

def width_of(path: str, text: str) -> int | None:
    """How many columns a line of this file may have; None: any number."""
    ending = os.path.splitext(path)[1]
    if text.startswith('-- ') and 'Written by outside/write_trials.py.' in text.split('\n', 1)[0]:
        return None
    if os.path.basename(path) == 'Makefile' or (not ending and text.startswith('#!')):
        ending = 'script'
    return WIDTHS.get(ending)


def check_widths(path: str, text: str) -> Iterator[Finding]:
    most = width_of(path, text)
    if most is None:
        return
    lines = (without_fences(text) if path.endswith('.md') else text).split('\n')
    for number, line in enumerate(lines, 1):
        free = (line.startswith(('use ', 'ghost use ')) if path.endswith(('.antt', '.rt'))
                else path.endswith('.md') and line.lstrip().startswith(('|', '![')))
        if len(line) > most and not free:
            yield path, number, f'{len(line)} columns, more than {most}'


# ---- (e) citations of the old pages, and paths of one machine

# the number of an old page as a word: not a part of another word or number, of a date or of hex
PAGE = re.compile(r'(?<![\w.:/\\#$%+-])(?<!\d,)0(?:0?1|2)(?![\w%]|[.:/-]\d)')
ABSOLUTE = re.compile(r'(?<![\w.*$})\]>"\'`?~:/-])/([A-Za-z][\w.+-]*)((?:/[\w.+-]+)+)|(?<=["\'`: ])/([A-Za-z][\w.+-]*)'
                      r'((?:/[\w.+-]+)+)')
# folders that a script may name, and the roots of the machine that are no folder of the repository
COMMON = ('usr', 'dev', 'tmp', 'etc', 'proc', 'bin', 'sbin', 'lib', 'sys', 'opt/rattle')


def page_citations(line: str) -> list[str]:
    return PAGE.findall(line)


def machine_paths(line: str) -> list[str]:
    found = []
    for match in ABSOLUTE.finditer(re.sub(r'\b[a-z]+://\S+', '', line)):
        path = match.group().lstrip('/')
        if not any(path == start or path.startswith(start + '/') for start in COMMON):
            found.append('/' + path)
    return found


def check_sources(names: Names, path: str, text: str) -> Iterator[Finding]:
    """Files of the repository that a comment or a message names."""
    tops, endings = 'outside|docs|bin|bench|crates|rust|c', 'py|md|antt|rt|c|h|rs'
    for found in re.finditer(rf'(?<![\w./$~}}-])(?:{tops})/[\w./-]+\.(?:{endings})\b', text):
        if not names.path(found.group()):
            yield path, line_of(text, found.start()), f'there is no file {found.group()}'


def check_lines(path: str, text: str) -> Iterator[Finding]:
    for number, line in enumerate(text.split('\n'), 1):
        for page in page_citations(line):
            yield path, number, f'cites the page "{page}" by its number'
        for name in machine_paths(line):
            yield path, number, f'names {name}, a path of one machine'


# ---- all of it

def findings(root: str) -> tuple[list[Finding], str]:
    """Every finding, and what was looked at."""
    names = gather(root)
    texts = {path: text for path in sorted(names.files) if (text := read(root, path)) is not None}
    documents = [path for path in texts if is_document(path)]
    found: list[Finding] = []
    for path in documents:
        found += check_names(names, path, texts[path])
        found += check_links(names, texts, path, texts[path])
    found += check_rooms(names, texts.get('docs/ROOMS.md', ''))
    found += check_promises(names, texts.get('docs/PROMISES.md', ''))
    found += check_clauses(texts)
    for path, text in texts.items():
        found += check_widths(path, text)
        if path not in documents and not path.startswith('outside/tests/'):
            found += check_sources(names, path, text)
        found += check_lines(path, text)
    count = sum(1 for path in documents for _ in spans(texts[path]))
    return sorted(found), (f'{len(documents)} documents, {count} names and fragments in backticks, {len(names.crates)} '
                           f'crates, {len(names.public)} public functions, {len(texts)} text files')


def main() -> int:
    if len(sys.argv) > 2 or sys.argv[1:2] == ['-h'] or sys.argv[1:2] == ['--help']:
        print(__doc__)
        return 0 if len(sys.argv) == 2 else 2
    root = sys.argv[1] if len(sys.argv) == 2 else os.path.dirname(os.path.dirname(os.path.abspath(__file__)))
    found, seen = findings(root)
    for path, line, what in found:
        print(f'{path}:{line}: {what}')
    print(f'{len(found)} findings' if found else f'{seen}: nothing wrong')
    return 1 if found else 0


if __name__ == '__main__':
    sys.exit(main())
