"""The small functions of bench/."""
import os
import sys
import unittest
from unittest import mock

sys.path.insert(0, os.path.join(os.path.dirname(os.path.abspath(__file__)), '..', '..', 'bench'))
import picture
import programs
import tables

TEXT = '''reference\tlibgsm on integers, -O2
bits\tencode\tspeech\t1\tours\t0\t10
bits\tencode\tspeech\t1\tlibgsm on integers, -O2\t0\t10
bits\tencode\tspeech\t1\tspandsp of Debian\t3\t10
bits\tencode\tnoise\t1\tours\t0\t10
bits\tencode\tnoise\t1\tlibgsm on integers, -O2\t0\t10
bits\tencode\tnoise\t1\tspandsp of Debian\t0\t10
best\tencode\tspeech\t1\tlibgsm on integers, -O2\t2000\t2100
best\tencode\tspeech\t1\tspandsp of Debian\t500\t500
best\tencode\tspeech\t1\tours\t1000\t1010
turns\tencode\tspeech\t64\tours\t1250\t1300
state\tencode\tours\t280\t280
missing\tlibavcodec of Debian\tit is not installed
refused\tencode\t50
'''


class Picture(unittest.TestCase):
    def test_wrapped(self) -> None:
        self.assertEqual(picture.wrapped('aa bb cc dd', 6), ['aa bb', 'cc dd'])

    def test_kind(self) -> None:
        rows = (('ours, not packed', 'no'), ('libgsm', 'yes'), ('libgsm', 'no'))
        self.assertEqual([picture.kind(*row) for row in rows], ['ours', 'right', 'other'])

    def test_text_is_escaped(self) -> None:
        self.assertIn('>a &lt; b</text>', picture.text(1, 2, 'a < b'))

    def test_the_longest_bar(self) -> None:
        drawn = list(picture.bar(0, ['ours', '50', '2.00', 'yes'], 100))
        self.assertIn(f'width="{picture.LONGEST / 2:.1f}"', drawn[1])


class Tables(unittest.TestCase):
    def setUp(self) -> None:
        self.said = tables.Said(TEXT, '5', 'speech', {'libgsm': 'why'})

    def test_read(self) -> None:
        self.assertEqual(self.said.missing, {'libgsm': 'why', 'libavcodec of Debian': 'it is not installed'})
        self.assertEqual(self.said.state, {('encode', 'ours'): (280, 280)})
        self.assertEqual((self.said.reference, self.said.refused), (tables.REFERENCE, {'encode': 50.0}))

    def test_results(self) -> None:
        self.assertEqual(list(tables.result_rows(self.said)), [
            ('encode', 'speech', 'ours', 1000000, '2.00', 'yes'),
            ('encode', 'speech', tables.REFERENCE, 500000, '1.00', 'yes'),
            ('encode', 'speech', 'spandsp of Debian', 2000000, '4.00', 'no')])

    def test_the_rival_has_the_right_bits(self) -> None:
        self.assertEqual(self.said.rival('encode'), tables.REFERENCE)
        self.assertIsNone(self.said.rival('decode'))

    def test_channels(self) -> None:
        self.assertEqual(list(tables.channel_rows(self.said)), [('encode', 'ours', 64, 280, 800000)])
        self.assertEqual(tables.state_of(self.said, 'decode', 'ours'), '-')

    def test_ours_first(self) -> None:
        keys = [('decode', 'ours'), ('encode', 'a'), ('encode', 'ours, not packed'), ('decode', 'a')]
        self.assertEqual(tables.ours_first(keys, 1), [keys[2], keys[1], keys[0], keys[3]])

    def test_aligned(self) -> None:
        with mock.patch('builtins.print') as printed:
            tables.aligned(('name', 'count'), [('a', 1000), ('long name', 5)])
        self.assertEqual([call.args for call in printed.call_args_list],
                         [('name       count',), ('a          1,000',), ('long name      5',), ()])


class Programs(unittest.TestCase):
    def test_rows(self) -> None:
        best = {('encode', 'ours: encode'): 0.15, ('encode', 'toast of Debian'): 0.3}
        self.assertEqual(list(programs.rows(best)), [('encode', 'ours: encode', '0.150', '5.00', '2.00'),
                                                     ('encode', 'toast of Debian', '0.300', '10.00', '1.00')])


if __name__ == '__main__':
    unittest.main()
