"""differences.py: where two answers differ, and in which words that is said."""
import os
import tempfile
import unittest
from array import array
from unittest import mock

import differences
import signals
from differences import CODEWORDS, OCTETS, SAMPLES, Difference


class Places(unittest.TestCase):
    def test_first_place(self) -> None:
        row = list(range(1000))
        for place in (0, 1, 499, 998, 999):
            other = row.copy()
            other[place] = -1
            self.assertEqual(differences.first_place(row, other), place)
        self.assertEqual(differences.first_place(b'abc', b'ab'), 2)
        self.assertEqual(differences.first_place(b'', b'ab'), 0)

    def test_at(self) -> None:
        self.assertEqual((differences.at([7], 0), differences.at([7], 1)), (7, 'nothing'))

    def test_names_of_codewords(self) -> None:
        names = [differences.codeword_name(i) for i in range(76)]
        self.assertEqual((names[0], names[7]), ('LARc 1', 'LARc 8'))
        self.assertEqual([names[start] for start in signals.STARTS], [f'lag of sub-frame {n}' for n in range(1, 5)])
        self.assertEqual(names[9:13], ['gain of sub-frame 1', 'grid of sub-frame 1', 'amplitude of sub-frame 1',
                                       'pulse 1 of sub-frame 1'])
        self.assertEqual(names[75], 'pulse 13 of sub-frame 4')

    def test_place_name(self) -> None:
        self.assertEqual([differences.place_name(kind, 8) for kind in (CODEWORDS, SAMPLES, OCTETS)],
                         ['lag of sub-frame 1', 'sample 8', 'octet 8'])


class Words(unittest.TestCase):
    """The inputs that show a difference go to a folder of their own."""

    def setUp(self) -> None:
        folder = tempfile.TemporaryDirectory()
        self.addCleanup(folder.cleanup)
        self.folder = folder.name
        patch = mock.patch.object(differences, 'BUILD', folder.name)
        patch.start()
        self.addCleanup(patch.stop)
        self.run_ = signals.Run('tones', 160)
        self.run_.add('a tone', [1] * 480)

    def test_same_words(self) -> None:
        same = bytes(152 * 3)
        differences.same_words(self.run_, 1, CODEWORDS, {'one': same, 'two': same, 'three': same})
        other = array('H', same)
        other[76 + 8] = 41
        with self.assertRaises(Difference) as raised:
            differences.same_words(self.run_, 1, CODEWORDS, {'one': same, 'two': same, 'three': other.tobytes()})
        said = str(raised.exception)
        self.assertIn('tones, seed 1: three differs from one at frame 1 (a tone, its frame 1), word 8 '
                      '(lag of sub-frame 1): 0 by one, 0 by two, 41 by three', said)
        self.assertTrue(said.endswith('the input to the end of that frame is build/differs-160.raw'))
        self.assertEqual(os.path.getsize(os.path.join(self.folder, 'differs-160.raw')), 640)

    def test_a_missing_frame(self) -> None:
        with self.assertRaisesRegex(Difference, 'two gives 304 bytes for 3 frames\nthe input is build/differs-160.raw'):
            differences.same_words(self.run_, 1, CODEWORDS, {'one': bytes(456), 'two': bytes(304)})

    def test_octets_are_kept_as_octets(self) -> None:
        run = signals.Run('octets', 160, 'B')
        run.add('a signal', bytes(160))
        self.assertEqual(differences.kept_run(run, 1), 'build/differs-160.al')
        with self.assertRaisesRegex(Difference, r'word 3 \(octet 3\): 0 by one, 9 by two'):
            differences.same_words(run, 1, OCTETS, {'one': bytes(160), 'two': bytes(3) + b'\x09' + bytes(156)})

    def test_same_values(self) -> None:
        differences.same_values('expand', 0, {'one': [1, 2], 'two': [1, 2]})
        with self.assertRaisesRegex(Difference, '^compress -4095: 2 by one, 3 by two$'):
            differences.same_values('compress', -4096, {'one': [1, 2], 'two': [1, 3]})
        with self.assertRaisesRegex(Difference, '^expand 1: 2 by one, nothing by two$'):
            differences.same_values('expand', 0, {'one': [1, 2], 'two': [1]})

    def test_same_lines(self) -> None:
        differences.same_lines('speech', b'', {'one': b'a\n', 'two': b'a\n'})
        with self.assertRaisesRegex(Difference, r"^speech: two and one differ at line 2: b'b\\n' by one, 'nothing' by"):
            differences.same_lines('speech', b'xyz', {'one': b'a\nb\n', 'two': b'a\n'})
        with open(os.path.join(self.folder, 'differs-listed.raw'), 'rb') as file:
            self.assertEqual(file.read(), b'xyz')

    def test_same_bytes(self) -> None:
        differences.same_bytes('a file', ('the file', b'ab'), ('ours', b'ab'))
        with self.assertRaisesRegex(Difference, '^a file: ours differs from the file at byte 1: 98 in the file, '
                                                '99 by ours; 2 and 3 bytes$'):
            differences.same_bytes('a file', ('the file', b'ab'), ('ours', b'acd'))


if __name__ == '__main__':
    unittest.main()
