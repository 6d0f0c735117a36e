"""check_docs.py: each rule finds what is wrong, and nothing else."""
import os
import tempfile
import unittest
from unittest import mock

import check_docs as docs

# The numbers of the old pages are put together here, so that this file does not cite them.
OLD = [f'0{n}' for n in ('1', '2')] + [f'00{1}']
RT = '''// A stage.
use other::thing;
ghost use Rattle.std.specs.Prelude.{pos, to_z};
pub struct Encoder {
    pub l_z2: i32,
}
pub enum Mark {
    Rule,
    Found,
}
impl Encoder {
    pub fn home() -> Encoder {
        Encoder { l_z2: 0 }
    }
}
pub fn weighted(out: &mut [i16], place: usize) -> i16 {
    inner(out)
}
fn inner(out: &mut [i16]) -> i16 {
    0
}
#[unsafe(no_mangle)]
pub extern "C" fn rpeltp_encode(state: Encoder) -> Encoder {
    state
}
'''
ANTT = '''-- 4.2.13: a stage, with `nothing : here`
use lib.ListN.{take, drop}
use Rattle.standard.specs.Lpc as lpc

pub weighted : List ℤ → List ℤ
weighted e = local e

unfoldable pub ◌at◌ : ℕ
abbrev pub L_sum :
  ℤ

-- ---- 4.2.14 RPE grid selection
pub record Answer (n : ℕ) : Type 0 where
  pub number : ℕ

data Ending : Type 0 where
  silent : Ending
  | stopped : ℕ → Ending

module _ (x : ℤ) where
  pub inside : ℤ

pub ruleset results = (inside)
'''
FILES = {
    'README.md': '# A name\n\n`crates/rpe_weighting` and [the rooms](docs/ROOMS.md#the-crates).\n',
    'Makefile': 'SEED = 1\n.PHONY: run\nrun: build/x\n\techo --frames\n',
    'crates.txt': '# stages\nrpe_weighting:\n',
    'crates/rpe_weighting/src/lib.rt': RT,
    'crates/standard/specs/Rpe.antt': ANTT,
    'crates/rpe_weighting/must-fail/tap_off.edit': 'file: src/lib.rt\n',
    'crates/rpe_weighting/proofs/weighted/Invariants.antt': 'abbrev pub invariant-loop : x\n\n  hidden-one : y\n',
    'docs/ROOMS.md': '# Rooms\n\n## The crates\n\n| `rpe_weighting` | 4.2.13 |\n',
    'docs/PROMISES.md': '| `rpe_weighting::weighted(out, place)` | `Encoder::home()` | `rpeltp_encode(state)` |\n',
    'docs/CLAUSES.md': '| 4.2.13 filter | x |\n| 4.2.14 grid | x |\n',
    'outside/vectors/enc/e15_impulse.raw': 'data',
    'outside/compare.py': "CODEWORDS, SAMPLES = 1, 2\n\n\ndef counts():\n    os.environ.get('RPELTP_SEQUENCES')\n",
    'c/rpeltp.h': '/* comment_word */\n#define RPELTP_SAMPLES 160\nint rpeltp_home(void);\n',
    'rust/src/lib.rs': 'pub struct Signs {\n    pub ending: Ending,\n}\nimpl Signs {\n    pub fn all() {}\n}\n',
    'rust/Cargo.toml': 'name = "rpeltp"\n',
}


class Checkout(unittest.TestCase):
    """A small checkout in which nothing is wrong."""

    def setUp(self) -> None:
        folder = tempfile.TemporaryDirectory()
        self.addCleanup(folder.cleanup)
        self.root = folder.name
        for path, text in FILES.items():
            self.write(path, text)

    def write(self, path: str, text: str) -> None:
        os.makedirs(os.path.dirname(os.path.join(self.root, path)), exist_ok=True)
        with open(os.path.join(self.root, path), 'w', encoding='utf-8') as file:
            file.write(text)

    def found(self) -> list[str]:
        return [f'{path}:{line}: {what}' for path, line, what in docs.findings(self.root)[0]]

    def spans(self, *spans: str) -> list[str]:
        """What is wrong with each of these in backticks."""
        names = docs.gather(self.root)
        return [wrong for span in spans for wrong in docs.wrong_in_span(names, span)]


class Whole(Checkout):
    def test_nothing_is_wrong(self) -> None:
        self.assertEqual(self.found(), [])
        self.assertIn('1 crates, 3 public functions', docs.findings(self.root)[1])

    def test_main(self) -> None:
        with mock.patch('builtins.print') as printed:
            with mock.patch('sys.argv', ['check_docs.py', self.root]):
                self.assertEqual(docs.main(), 0)
            self.write('README.md', 'x `no_such_name`\n')
            with mock.patch('sys.argv', ['check_docs.py', self.root]):
                self.assertEqual(docs.main(), 1)
        said = [call.args[0] for call in printed.call_args_list]
        self.assertTrue(said[0].endswith('nothing wrong'))
        self.assertEqual(said[1:], ['README.md:1: nothing here is called no_such_name', '1 findings'])

    def test_files_without_git(self) -> None:
        self.write('build/made.py', 'x = 1\n')
        self.write('crates/rpe_weighting/out/made.antt', 'x : 1\n')
        self.write('rust/target/made.rs', 'x\n')
        with mock.patch('subprocess.run', side_effect=FileNotFoundError):
            self.assertEqual(docs.tracked(self.root), sorted(FILES))

    def test_files_of_git(self) -> None:
        listed = mock.Mock(returncode=0, stdout='README.md\0docs/GONE.md\0')
        with mock.patch('subprocess.run', return_value=listed):
            self.assertEqual(docs.tracked(self.root), ['README.md'])

    def test_lists(self) -> None:
        self.write('docs/ROOMS.md', '# Rooms\n\n## The crates\n\nrpe_weighting\n')
        self.write('docs/PROMISES.md', '| `rpe_weighting::inner` `home` |\n')
        self.write('docs/CLAUSES.md', '| 4.2.130 filter | 4.2.13 |\n| 4.2.14 grid | x |\n')
        self.assertEqual(self.found(), [
            'crates/rpe_weighting/src/lib.rt:12: docs/PROMISES.md does not list Encoder::home',
            'crates/rpe_weighting/src/lib.rt:16: docs/PROMISES.md does not list rpe_weighting::weighted',
            'crates/rpe_weighting/src/lib.rt:23: docs/PROMISES.md does not list rpe_weighting::rpeltp_encode',
            'crates/standard/specs/Rpe.antt:1: docs/CLAUSES.md has no row for 4.2.13',
            'docs/ROOMS.md:1: crate rpe_weighting is not listed'])

    def test_links(self) -> None:
        self.write('README.md', '[a](docs/NO.md) [b](docs/ROOMS.md#no)\n'
                                '[c](#a-name) [d](https://x.org/y#z) `[pos](take)`\n'
                                '![picture](bench/no.svg)\n# A name\n')
        self.assertEqual(self.found(), ['README.md:1: docs/ROOMS.md has no heading for #no',
                                        'README.md:1: the link to docs/NO.md leads to no file',
                                        'README.md:3: the link to bench/no.svg leads to no file'])

    def test_paths_in_code(self) -> None:
        self.write('README.md', 'x\n\n    outside/compare.py --frames 5 < outside/no.raw\n\n```\ndocs/NO.md\n```\n')
        self.assertEqual(self.found(), ['README.md:3: there is no file or folder outside/no.raw',
                                        'README.md:6: there is no file or folder docs/NO.md'])

    def test_sources(self) -> None:
        self.write('crates/standard/specs/Made.antt', '-- Written by outside/old.py, from outside/compare.py.\n')
        self.assertEqual(self.found(), ['crates/standard/specs/Made.antt:1: there is no file outside/old.py'])


class Names(Checkout):
    def test_names_that_exist(self) -> None:
        self.assertEqual(self.spans(
            'rpe_weighting', 'weighted', 'rpe_weighting::weighted', 'Encoder::home()', 'rpe_weighting::Encoder::home',
            'l_z2', '«l_z2»', 'Found', 'Mark::Found', 'libc::read', 'place', '◌at◌', 'L_sum', 'Answer', 'number',
            'silent', 'stopped', 'inside', 'results', 'take', 'lpc', 'to_z', 'invariant-loop', 'tap_off',
            'tap_off.edit', 'e15_impulse', 'Rpe', 'Rpe.antt', 'run', 'SEED', 'rpeltp_home', 'RPELTP_SAMPLES', 'Signs',
            'ending', 'Signs::all', 'rpeltp', 'counts', 'SAMPLES', 'stop3', 'RPELTP_SEQUENCES', 'specs', 'rpe_',
            'rpe_..', 'build/bin', 'docs/ROOMS.md', 'ROOMS.md', 'specs/Rpe.antt',
            'crates/NAME/src/lib.rt', '.antt', 'outside/vectors/enc/e15_impulse', 'Makefile', '--frames'), [])

    def test_names_that_do_not(self) -> None:
        for span in ('rpe_other', 'nothing', 'local', 'hidden-one', 'comment_word', 'rpe_weighting::inside',
                     'rpe_weighting::to_z', 'rpe_weighting::place',
                     'Encoder::away', 'rpe_no::weighted', 'rpe_weighting::Mark::home', 'Mark::Lost', 'tap_on',
                     'tap_on.edit', 'Lpc.antt', 'docs/NO.md', 'specs/No.antt', 'crates/NAME/no.rt', '.xyz', 'law_..',
                     'stop9', '--no', 'W-204', 'weighted(nowhere)'):
            self.assertEqual(len(self.spans(span)), 1, span)

    def test_several_words(self) -> None:
        self.assertEqual(self.spans('make run SEED=7', 'rt must-fail rpe_weighting', 'any plain words', 'L_sum a b ≡ x',
                                    'F 1 complete 32', 'python3 outside/compare.py --frames 5', 'N passed, 0 failed',
                                    'if x < 15 { y } else { z }', 'rt: rpe_weighting proved'), [])
        for span in ('make walk', 'rt dev', 'L_some a b', 'x no_name y', 'camelCase x', 'python3 outside/no.py',
                     'rt ci rpe_other', 'a rpe_weighting::no'):
            self.assertEqual(len(self.spans(span)), 1, span)

    def test_what_is_no_name(self) -> None:
        self.assertEqual(self.spans('>>', '≡', '32768', '-1', '0xD5', 'D5', '1.5', '76usize', '?'), [])

    def test_requests(self) -> None:
        self.write('docs/REQUESTS.md', '# W-204\n')
        self.assertEqual(self.spans('W-204', 'request W-204'), [])
        self.assertEqual(len(self.spans('W-205')), 1)

    def test_spans(self) -> None:
        text = 'a `one` b\n`two\nthree` ``four ` five``\n\n    `code`\n\n```\n`fenced`\n```\n- item\n\n  `item`\n'
        self.assertEqual(list(docs.spans(text)), [(1, 'one'), (2, 'two three'), (3, 'four ` five'), (12, 'item')])

    def test_code_in_a_list(self) -> None:
        text = '1. item\n\n    text `a`\n\n        code\n\nend\n\n    code\n'
        lines = docs.without_code(text).split('\n')
        self.assertEqual([number for number, line in enumerate(lines, 1) if line.strip()], [1, 3, 7])

    def test_slug(self) -> None:
        self.assertEqual(docs.slug("4.2.13: What it's `for`, and [why](x.md)"), '4213-what-its-for-and-why')
        self.assertEqual(docs.anchors('# A b\n\n## A b\n\n```\n# no\n```\n'), {'a-b', 'a-b-1'})

    def test_functions(self) -> None:
        self.assertEqual(list(docs.crate_functions(RT)), [
            ('Encoder', 'home', True), (None, 'weighted', True), (None, 'inner', False), (None, 'rpeltp_encode', True)])

    def test_headings(self) -> None:
        text = '-- 4.2.1 to 4.2.3: x\n-- ---- 4.3.6, 4.3.7 Upscaling\n-- table 4.1: no\nx = 4.9\n-- see 4.8\n'
        self.assertEqual(list(docs.heading_clauses(text)), [(1, '4.2.1'), (1, '4.2.3'), (2, '4.3.6'), (2, '4.3.7')])


class Lines(unittest.TestCase):
    def wide(self, path: str, *lines: str) -> list[int]:
        return [line for _, line, _ in docs.check_widths(path, '\n'.join(lines))]

    def test_widths(self) -> None:
        self.assertEqual(self.wide('docs/A.md', 'x' * 100, 'x' * 101, '|' + 'x' * 200, '![' + 'x' * 200), [2])
        self.assertEqual(self.wide('docs/A.md', '```', 'x' * 200, '```', 'x' * 101), [4])
        self.assertEqual(self.wide('crates/a/specs/A.antt', 'x' * 140, 'x' * 141, 'use ' + 'x' * 200), [2])
        self.assertEqual(self.wide('crates/a/src/lib.rt', 'x' * 120, 'x' * 121, 'ghost use ' + 'x' * 200), [2])
        for path in ('outside/a.py', 'c/a.c', 'c/a.h', 'rust/a.rs', 'bench/a.sh', 'Makefile'):
            self.assertEqual(self.wide(path, 'x' * 120, 'use ' + 'x' * 117), [2], path)
        self.assertEqual(self.wide('bin/a', '#!/bin/sh', 'x' * 120, 'x' * 121), [3])
        written = '-- Frames. Written by outside/write_trials.py.\n' + 'x' * 500
        self.assertEqual(self.wide('crates/standard_trials/specs/A.antt', written), [])
        self.assertEqual(self.wide('crates/standard_trials/specs/A.antt', 'x' * 500), [1])
        self.assertEqual(self.wide('bench/a.tsv', 'x' * 500), [])

    def test_citations(self) -> None:
        one, two, three = OLD
        for line in (f"-- {one}'s rows", f'({two}, W-204)', f'of {three}', f'"{one}" says', f'{three}, A3.2: files',
                     f'// {one}: x', f'both {one} and'):
            self.assertEqual(len(docs.page_citations(line)), 1, line)
        for line in (f'SEQ{one}', f'e{one}_zero', f'0x{one}', f'2026-{one}-15', f'4.{one}', f'{one}:30', f'{one}.5',
                     f'1,{three}', f'320,000,{three} bytes'):
            self.assertEqual(docs.page_citations(line), [], line)

    def test_machine_paths(self) -> None:
        for top in ('home', 'root', 'srv', 'mnt', 'opt'):
            for line in (f'see /{top}/a/b', f"open('/{top}/x')", f'(/{top}/a/b)', f'`/{top}/x/y`', f'/{top}/other/x'):
                self.assertEqual(len(docs.machine_paths(line)), 1, line)
        for line in ('/usr/bin/x', '#!/bin/sh', '/opt/rattle/on', '/tmp/x/y', 'a/b/c', '$HOME/a/b', '// a/b',
                     '"$here/x/y"', 'https://x.org/a/b', '../a/b', './a/b', '{root}/a/b', '4.2.1/4.2.2'):
            self.assertEqual(docs.machine_paths(line), [], line)


if __name__ == '__main__':
    unittest.main()
