"""The small functions of compare.py, of the modules that it calls, of try_mutants.py, write_trials.py and
build_libgsm.py."""
import ctypes
import os
import tempfile
import unittest
from array import array
from unittest import mock

import alaw_comparison
import build_libgsm
import check_boundary
import compare
import peers
import program_tests
import states
import try_mutants
import vector_comparison
import write_trials
from differences import Difference

LISTING = b'RPELTP\t1\nF\t1\tcomplete\t1\t2\nS\t1\t1\tfound\t40\t0\t2\nS\t1\t2\trule\t40\t0\t0\nE\t1\t0\t0\tend\n'


class Compare(unittest.TestCase):
    def test_lines_with(self) -> None:
        wanted = {'complete': 1, 'found 40 0': 1, 'rule': 1, 'silent': 0, 'com': 0}
        self.assertEqual({fields: compare.lines_with(fields, LISTING) for fields in wanted}, wanted)

    def test_counts(self) -> None:
        self.assertEqual(compare.counts({'a': 2, 'b': 0, 'c': 1}, ['c', 'b', 'a']), 'c 1, a 2')

    def test_forties(self) -> None:
        codewords = [0] * 76
        codewords[8], codewords[25], codewords[42], codewords[43], codewords[59] = 40, 40, 40, 1, 41
        self.assertEqual(compare.forties(['found', 'rule', 'found', 'found'], codewords), ['found 40 0'])

    def test_number_given(self) -> None:
        self.assertEqual(compare.number_given([1], [0]), 'encode 0')
        self.assertEqual(compare.number_given([99], [255]), 'no call 255')

    def test_turned_over(self) -> None:
        # a level of -32768 and then one of 32767: the sample after the jump is above 32760 before it is scaled
        samples = array('h', [-32768] * 160 * 100 + [32767] * 160)
        ours, theirs = array('H', bytes(152 * 101)), array('H', bytes(152 * 101))
        theirs[76 * 100] = 1
        self.assertIsNone(compare.turned_over(samples, ours.tobytes(), ours.tobytes()))
        self.assertEqual(compare.turned_over(samples, theirs.tobytes(), ours.tobytes()), 100)
        theirs[0] = 1
        self.assertIsNone(compare.turned_over(samples, theirs.tobytes(), ours.tobytes()))

    def test_met_by(self) -> None:
        record = array('H', [0] * states.WORDS)
        record[0] = states.ENCODE_ALAW
        answer = array('H', [0] * states.WORDS)
        answer[1:6] = array('H', [18, 1, 2, 2, 1])
        answer[states.CODEWORDS + 25] = 40
        self.assertEqual(list(compare.met_by('a call', record, answer)),
                         ['A-law stop2', 'A-law rule', 'A-law found', 'A-law found', 'A-law rule', 'A-law found 40 0'])
        record[0] = states.ENCODE
        self.assertEqual(list(compare.met_by('a call', record, answer))[0], 'stop2')

    def test_differs(self) -> None:
        with mock.patch.object(compare, 'kept', lambda name, given: f'build/{name}'):
            with self.assertRaisesRegex(Difference, r'^calls, seed 1: call 2 \(a call\), word 305, in the samples at 1:'
                                                    r' 3 by ours\nthe record is build/differs-call.raw$'):
                compare.differs(1, 2, ('a call', array('H', [0])), states.SAMPLES + 1, {'ours': 3})

    def test_what_a_call_may_not_do(self) -> None:
        record = array('H', [0] * states.WORDS)
        record[0] = states.PACK
        right = states.with_its_own(record, array('H', [0] * states.WORDS))
        compare.within_the_rules(1, 0, ('a call', record), right)
        with mock.patch.object(compare, 'kept', lambda name, given: name):
            for place, value in ((0, 1), (states.STATE, 1), (states.UNUSED, 1)):
                wrong = array('H', right)
                wrong[place] = value
                with self.assertRaises(Difference, msg=str(place)):
                    compare.within_the_rules(1, 0, ('a call', record), wrong)


class Programs(unittest.TestCase):
    def test_programs_of(self) -> None:
        text = '# libraries\nwords:\n# programs\nlister: words\nencode:\n# other\nx:\n# programs for tests\ny: words\n'
        self.assertEqual(program_tests.programs_of(text), ['lister', 'encode', 'y'])

    def test_the_help(self) -> None:
        text = '    NAME    reads\n    lister  samples\n    encode_alaw  octets\n\n    bin/rpeltp lister < a > b\n'
        self.assertEqual(program_tests.table_lines(text), ['lister', 'encode_alaw'])
        self.assertEqual(program_tests.example_lines(text), ['bin/rpeltp lister < a > b'])

    def test_quoted_lines(self) -> None:
        text = 'these are lines 1, 12\nand 7 and the last:\n  RPELTP 1\n  F 1 silent\nSee F lines.\n  Each E\n  E 1 0\n'
        self.assertEqual(program_tests.quoted_lines(text.replace('12\nand', '12 and')),
                         ([1, 12, 7], ['RPELTP 1', 'F 1 silent', 'E 1 0']))
        with self.assertRaises(Difference):
            program_tests.quoted_lines('  F 1 silent\n')

    def test_told_rest(self) -> None:
        self.assertEqual(program_tests.told_rest(0), b'')
        self.assertEqual(program_tests.told_rest(7), b'7 bytes are left over, less than a frame: not coded\n')

    def test_expected(self) -> None:
        with mock.patch.object(program_tests, 'FRAMES', 2000):
            lines = b''.join(program_tests.expected('limit')).splitlines()
        self.assertEqual((len(lines), lines[0], lines[-1]), (2 + 5 * 2000, b'RPELTP\t1', b'E\t2000\t0\t0\tlimit'))
        self.assertEqual(lines[5 * 1999 + 1], b'F\t2000\tsilent\t32\t32\t20\t11\t8\t5\t3\t2')
        self.assertEqual(lines[5], b'S\t1\t4\trule\t40\t0\t0\t0' + b'\t4' * 13)

    def test_due_leaves_out_the_last_line(self) -> None:
        with mock.patch.object(program_tests, 'whole_answer', lambda name, given: b'a\nb\n'):
            self.assertEqual((program_tests.due('lister', b''), program_tests.due('encode', b'')), (b'a\n', b'a\nb\n'))

    def test_what_the_examples_print(self) -> None:
        with mock.patch.object(peers, 'ours', lambda name, given: LISTING):
            self.assertEqual(check_boundary.listed(b''), b'1\tcomplete\t40 found\t40 rule\nE\t1\t0\t0\n')


class Files(unittest.TestCase):
    def setUp(self) -> None:
        folder = tempfile.TemporaryDirectory()
        self.addCleanup(folder.cleanup)
        self.folder = folder.name

    def file(self, name: str, given: bytes) -> str:
        path = os.path.join(self.folder, name)
        with open(path, 'wb') as file:
            file.write(given)
        return path

    def test_frames(self) -> None:
        path = self.file('a.raw', array('h', [1, 2, 3, 4, 5]).tobytes() + b'\x00')
        self.assertEqual(vector_comparison.frames(path, 2), [[1, 2], [3, 4]])

    def test_named(self) -> None:
        for name in ('b.raw', 'a.raw', 'a.cod'):
            self.file(name, b'')
        self.assertEqual(vector_comparison.named(self.folder, '.raw'), [f'{self.folder}/a', f'{self.folder}/b'])
        self.assertEqual(vector_comparison.named(f'{self.folder}/none', '.raw'), [])

    def test_sequence(self) -> None:
        for ending, size in (('inp', 640), ('COD', 304), ('out', 640)):
            self.file(f'seq01.{ending}', bytes(size))
        self.assertEqual(sorted(vector_comparison.sequence(self.folder, 'SEQ01', 2)), ['COD', 'INP', 'OUT'])
        with self.assertRaisesRegex(Difference, 'SEQ01.INP has 640 bytes; by table A3.1 3 frames have 960'):
            vector_comparison.sequence(self.folder, 'SEQ01', 3)
        with self.assertRaisesRegex(Difference, 'there is no SEQ02.INP'):
            vector_comparison.sequence(self.folder, 'SEQ02', 2)
        with self.assertRaisesRegex(Difference, 'there is no SEQ05.COD'):
            vector_comparison.sequence(self.folder, 'SEQ05', 2)

    def test_stored(self) -> None:
        path = self.file('stdout', b'expand\t0\t5\t6\nother\t0\t1\nexpand\t2\t7\t8\n')
        with mock.patch.object(alaw_comparison, 'STORED', path):
            self.assertEqual(alaw_comparison.stored('expand', 0, 4), [5, 6, 7, 8])
            with self.assertRaisesRegex(Difference, 'has 4 values of expand, which has 5'):
                alaw_comparison.stored('expand', 0, 5)
            with self.assertRaisesRegex(Difference, 'begins at 0, where 1 is next'):
                alaw_comparison.stored('expand', 1, 4)


class Mutants(unittest.TestCase):
    def test_mutants_of(self) -> None:
        text = ('# a comment\n\nname: one\nfile: a.rs\nold: x\nold: \nold:   y\nnew: z\nwhy: 4.1: no\n\n'
                'name: two\nold: w\n')
        one, two = try_mutants.mutants_of(text)
        self.assertEqual(one, {'name': 'one', 'file': 'a.rs', 'old': 'x\n\n  y', 'new': 'z', 'why': '4.1: no'})
        self.assertEqual(two, {'name': 'two', 'old': 'w'})

    def test_the_list_is_whole(self) -> None:
        listed = try_mutants.mutants()
        self.assertEqual(len(listed), 93)
        self.assertEqual({tuple(mutant) for mutant in listed}, {('name', 'file', 'old', 'new', 'why')})
        for mutant in listed:
            with open(os.path.join(peers.SOURCE, 'src', mutant['file']), encoding='utf-8') as file:
                self.assertEqual(file.read().count(mutant['old']), 1, mutant['name'])

    def test_cost(self) -> None:
        inputs = [('encode-alaw', 'a', bytes(160)), ('list', 'b', bytes(640)), ('list', 'c', bytes(320))]
        self.assertEqual([name for _, name, _ in sorted(inputs, key=try_mutants.cost)], ['c', 'b', 'a'])


class Trials(unittest.TestCase):
    def test_terms(self) -> None:
        self.assertEqual((write_trials.number(5), write_trials.number(-5)), ('pos 5', 'neg 5'))
        self.assertEqual(write_trials.items([1, -2]), 'pos 1 ∷ neg 2 ∷ []')
        self.assertEqual(write_trials.items(b'\x07', str), '7 ∷ []')
        self.assertEqual((write_trials.ending_of('stop3'), write_trials.ending_of('silent')),
                         ('some (stopped 3)', 'some silent'))

    def test_states(self) -> None:
        coder = write_trials.state(states.Coder(LARpp=[1], u=[], dp=[]))
        self.assertEqual(coder, 'record { z1 = pos 0; L_z2 = pos 0; mp = pos 0; LARpp = pos 1 ∷ []; u = []; dp = [] }')
        decoder = write_trials.state(states.Decoder(dp=[], LARpp=[], v=[]))
        self.assertEqual(decoder, 'record { drp = []; nrp = pos 40; LARpp = []; v = []; msr = pos 0 }')

    def test_whole(self) -> None:
        text = write_trials.whole('Frames.', ['\n-- seen: decode\npub a : encode (pos 1) ≡ b\na = refl\n'])
        lines = text.splitlines()
        self.assertEqual(lines[0], '-- Frames. Written by outside/write_trials.py.')
        self.assertIn('use Rattle.standard.specs.Answers.{encode}', lines)
        self.assertIn('use Rattle.std.specs.Prelude.{◌≡◌, refl, pos}', lines)
        self.assertNotIn('replicate', text)

    def test_before(self) -> None:
        def step(state: states.Coder, frame: list[int]) -> tuple[states.Coder]:
            return states.Coder(z1=state.z1 + frame[0]),
        self.assertEqual(write_trials.before(step, states.Coder(), [[1], [2], [4]], 2), states.Coder(z1=3))


class Libgsm(unittest.TestCase):
    def test_as_source(self) -> None:
        self.assertEqual(build_libgsm.as_source('a.list', 'deb http://x main\n# deb y\ndeb-src z\n'),
                         'deb-src http://x main\n')
        self.assertEqual(build_libgsm.as_source('a.sources', 'Types: deb deb-src\nURIs: http://x\n'),
                         'Types: deb-src\nURIs: http://x\n')

    def test_state_fields(self) -> None:
        header = ('struct gsm_state {\n word dp0[ 280 ];\n longword L_z2; /* a\n comment */\n int mp;\n'
                  '#ifdef X\n word LARpp[2][8];\n unsigned char verbose;\n};\n')
        fields = build_libgsm.state_fields(header)
        self.assertEqual([name for name, _ in fields], ['dp0', 'L_z2', 'mp', 'LARpp', 'verbose'])
        self.assertEqual([ctypes.sizeof(kind) for _, kind in fields],
                         [560, ctypes.sizeof(ctypes.c_long), ctypes.sizeof(ctypes.c_int), 32, 1])
        with self.assertRaises(build_libgsm.Missing):
            build_libgsm.state_fields('struct other {};')


if __name__ == '__main__':
    unittest.main()
