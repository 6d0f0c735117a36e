"""operations.py, at the ends of the ranges. The values are worked out by hand from clause 4.1 of ETS 300 961, from the
note in 4.2.5 and, for A-law, from the segments of G.711."""
import unittest
from collections.abc import Callable

import operations as op

LEAST, MOST, L_LEAST, L_MOST = -32768, 32767, -2147483648, 2147483647


class Operations(unittest.TestCase):
    def equal(self, operation: Callable[..., int], *rows: tuple[tuple[int, ...], int]) -> None:
        for arguments, value in rows:
            self.assertEqual(operation(*arguments), value, arguments)

    def test_sums_saturate(self) -> None:
        self.equal(op.add, ((MOST, 1), MOST), ((LEAST, -1), LEAST), ((LEAST, MOST), -1), ((16384, 16383), MOST))
        self.equal(op.sub, ((LEAST, 1), LEAST), ((MOST, -1), MOST), ((0, LEAST), MOST), ((-1, MOST), LEAST))

    def test_long_sums_saturate(self) -> None:
        self.equal(op.l_add, ((L_MOST, 1), L_MOST), ((L_LEAST, -1), L_LEAST), ((L_LEAST, L_MOST), -1))
        self.equal(op.l_sub, ((L_LEAST, 1), L_LEAST), ((0, L_LEAST), L_MOST), ((-1, L_MOST), L_LEAST))

    def test_mult_rounds_down(self) -> None:
        # 32767 * 32767 = 1073676289 = 32766 * 32768 + 1
        self.equal(op.mult, ((MOST, MOST), 32766), ((LEAST, MOST), -32767), ((LEAST, LEAST), MOST))
        self.equal(op.mult, ((1, MOST), 0), ((-1, 1), -1), ((-1, MOST), -1), ((16384, 2), 1))

    def test_mult_r_rounds_to_the_nearest(self) -> None:
        self.equal(op.mult_r, ((MOST, MOST), 32766), ((LEAST, MOST), -32767), ((LEAST, LEAST), MOST))
        self.equal(op.mult_r, ((1, 16384), 1), ((1, 16383), 0), ((-1, 16384), 0), ((-1, 16385), -1))

    def test_l_mult_doubles(self) -> None:
        self.equal(op.l_mult, ((3, -5), -30), ((LEAST, MOST), -2147418112), ((LEAST, LEAST), L_MOST))

    def test_abs_of_the_least_word(self) -> None:
        self.equal(op.absolute, ((LEAST,), MOST), ((-32767,), MOST), ((-1,), 1), ((MOST,), MOST), ((0,), 0))

    def test_div(self) -> None:
        # num / denum in units of 1/32768, rounded down, and 32767 where both are equal
        self.equal(op.div, ((1, 2), 16384), ((1, 3), 10922), ((1, MOST), 1), ((5, 5), MOST), ((32766, MOST), 32766))
        self.equal(op.div, ((0, 5), 0), ((0, 0), 0), ((1, 0), 0), ((-1, 5), 0), ((5, -1), 0), ((3, 2), MOST))

    def test_norm(self) -> None:
        self.equal(op.norm, ((1,), 30), ((32768,), 15), ((1073741823,), 1), ((1073741824,), 0), ((L_MOST,), 0))

    def test_right_shifts_extend_the_sign(self) -> None:
        self.equal(op.right, ((-1, 1, 16), -1), ((-3, 1, 16), -2), ((LEAST, 15, 16), -1), ((MOST, 15, 16), 0),
                   ((-1, 40, 16), -1), ((L_LEAST, 31, 32), -1), ((3, -1, 16), 6))

    def test_left_shifts_lose_the_top(self) -> None:
        self.equal(op.left, ((1, 15, 16), LEAST), ((16384, 1, 16), LEAST), ((LEAST, 1, 16), 0), ((-1, 16, 16), 0),
                   ((1, 31, 32), L_LEAST), ((1, 32, 32), 0), ((16385, 2, 16), 4), ((-3, -1, 16), -2))

    def test_low_bits(self) -> None:
        self.equal(op.low, ((65535, 16), -1), ((32768, 16), LEAST), ((32767, 16), MOST), ((-32769, 16), MOST))

    def test_saturate(self) -> None:
        self.equal(op.saturate, ((32768, 16), MOST), ((-32769, 16), LEAST), ((2147483648, 32), L_MOST), ((7, 16), 7))


class Alaw(unittest.TestCase):
    def test_expand(self) -> None:
        # the quietest codes, the first of segments 1 and 2, the loudest
        codes = {0xD5: 1, 0x55: -1, 0xC5: 33, 0xF5: 66, 0xAA: 4032, 0x2A: -4032}
        self.assertEqual({code: op.expand(code) for code in codes}, codes)

    def test_compress(self) -> None:
        values = {0: 0xD5, 1: 0xD5, 2: 0xD4, 31: 0xDA, 32: 0xC5, 63: 0xCA, 64: 0xF5, 4095: 0xAA, -1: 0x55, -2: 0x55,
                  -3: 0x54, -4096: 0x2A}
        self.assertEqual({value: op.compress(value) for value in values}, values)

    def test_a_code_comes_back(self) -> None:
        self.assertEqual([op.compress(op.expand(code)) for code in range(256)], list(range(256)))


class Tables(unittest.TestCase):
    def test_names(self) -> None:
        names = [row[0] for row in op.PAIRS] + [row[0] for row in op.SINGLES] + [row[0] for row in op.RUNS]
        self.assertEqual(' '.join(names), 'add sub mult mult_r div l_mult l_add l_sub shr shl l_shr l_shl '
                                          'abs long_word low_word norm expand compress')

    def test_shifts_have_their_widths(self) -> None:
        shifts = {name: operation for name, _, _, operation in op.PAIRS}
        self.assertEqual((shifts['shl'](1, 15), shifts['l_shl'](1, 15)), (LEAST, 32768))
        self.assertEqual((shifts['shr'](1, -15), shifts['l_shr'](1, -15)), (LEAST, 32768))


if __name__ == '__main__':
    unittest.main()
