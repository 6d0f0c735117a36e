"""compare_operations.py: the text, and what is known of libgsm."""
import unittest

import compare_operations as co


class Text(unittest.TestCase):
    def test_rows(self) -> None:
        rows = list(co.rows())
        self.assertEqual([row[0] for row in rows[:3]], ['words', 'longs', 'counts'])
        # the row of add for -32768: its sums with the twenty words, from -32768 on
        self.assertEqual(rows[3][:4], ['add', -32768, -32768, -32768])
        self.assertEqual(rows[3][-1], -1)
        self.assertEqual([row[:3] for row in rows if row[0] == 'expand'][0], ['expand', 0, -688])
        self.assertEqual(sum(row[0] == 'compress' for row in rows), 256)

    def test_text_has_tabs(self) -> None:
        self.assertTrue(co.text().startswith('words\t-32768\t-32767\t'))
        self.assertTrue(co.text().endswith('\n'))

    def test_first_other(self) -> None:
        self.assertEqual(co.first_other(['a', 'b'], ['a', 'c']), (1, 'b', 'c'))
        self.assertEqual(co.first_other(['a', 'b'], ['a']), (1, 'b', ''))
        self.assertEqual(co.first_other([], ['a']), (0, '', 'a'))


class Libgsm(unittest.TestCase):
    def test_what_libgsm_refuses(self) -> None:
        self.assertTrue(co.refused('div', (2, 1)) and co.refused('div', (-1, 1)))
        self.assertFalse(co.refused('div', (1, 1)) or co.refused('div', (0, 1)))
        self.assertTrue(co.refused('l_mult', (-32768, -32768)) and co.refused('norm', (0,)))
        self.assertFalse(co.refused('l_mult', (-32768, 1)) or co.refused('norm', (1,)) or co.refused('add', (0, 0)))

    def test_wider(self) -> None:
        # a long word of 64 bits keeps the bit that 32 bits lose
        self.assertTrue(co.wider('l_shl', (1, 32), 0, 1 << 32))
        self.assertTrue(co.wider('l_shr', (1, -32), 0, 1 << 32))
        self.assertFalse(co.wider('l_shl', (1, 32), 1, 1 << 32))
        self.assertFalse(co.wider('l_shl', (1, 32), 0, 0))
        self.assertFalse(co.wider('l_shl', (1, -1), 0, 0))
        self.assertFalse(co.wider('shl', (1, 32), 0, 1 << 32))

    def test_cases(self) -> None:
        found = {name: sum(case[0] == name for case in co.cases()) for name in ('add', 'abs', 'norm', 'expand')}
        self.assertEqual(found, {'add': 400, 'abs': 20, 'norm': 9, 'expand': 0})


if __name__ == '__main__':
    unittest.main()
