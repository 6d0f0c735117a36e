"""check_layout.py: how it reads structs, calls and numbers, and how C lays them out."""
import unittest

import check_layout as layout
from check_layout import Drift

HEADER = '''/* a comment: int16_t nothing; */
#define RPELTP_SAMPLES 160
typedef struct {
    int32_t l_z2;
    int16_t larpp[8];  /* ratios */
} rpeltp_encoder;
RPELTP_SIZE(rpeltp_encoder, 20);
RPELTP_PLACE(rpeltp_encoder, larpp, 4);
rpeltp_encode_answer rpeltp_encode(rpeltp_encoder state, const int16_t *samples, size_t samples_len,
                                   int16_t *codewords, size_t codewords_len);
rpeltp_encoder rpeltp_encoder_home(void);
'''


class Reading(unittest.TestCase):
    def test_rust_fields(self) -> None:
        self.assertEqual(layout.rust_fields('pub z1: i16,\n    pub dp: [i16; 120],\n'),
                         [('z1', 'i16'), ('dp', '[i16;120]')])
        self.assertEqual(layout.rust_fields('state: Encoder, samples: &[i16], codewords: &mut [i16]'),
                         [('state', 'Encoder'), ('samples', '&[i16]'), ('codewords', '&mut[i16]')])

    def test_header_structs(self) -> None:
        text = layout.without_comments(HEADER)
        self.assertNotIn('nothing', text)
        self.assertEqual(layout.header_structs(text), {'Encoder': [('l_z2', 'i32'), ('larpp', '[i16;8]')]})

    def test_header_calls(self) -> None:
        parameters = [('state', 'Encoder'), ('samples', '&[i16]'), ('codewords', '&mut[i16]')]
        self.assertEqual(layout.header_calls(HEADER), {'rpeltp_encode': (parameters, 'EncodeAnswer'),
                                                       'rpeltp_encoder_home': ([], 'Encoder')})

    def test_a_pointer_without_its_length(self) -> None:
        with self.assertRaisesRegex(Drift, 'the length after samples'):
            layout.header_parameters('const int16_t *samples, size_t other_len')

    def test_header_numbers(self) -> None:
        self.assertEqual(layout.header_numbers(HEADER), {'SAMPLES': 160})
        self.assertEqual(layout.header_asserted(HEADER), ({'Encoder': 20}, [('Encoder', 'larpp', 4)]))

    def test_c_type(self) -> None:
        self.assertEqual((layout.c_type('uint8_t', '33'), layout.c_type('int16_t'), layout.c_type('other')),
                         ('[u8;33]', 'i16', 'other'))

    def test_as_rust(self) -> None:
        self.assertEqual(list(layout.as_rust([('samples', '&[i16]'), ('codewords', '&mut[i16]'), ('n', 'u16')])),
                         [('samples', '*consti16'), ('samples_len', 'usize'), ('codewords', '*muti16'),
                          ('codewords_len', 'usize'), ('n', 'u16')])

    def test_found(self) -> None:
        self.assertEqual(layout.found('b(.)', 'abc', 'it').group(1), 'c')
        with self.assertRaisesRegex(Drift, 'it is not found'):
            layout.found('x', 'abc', 'it')


class LaidOut(unittest.TestCase):
    def test_element(self) -> None:
        self.assertEqual((layout.element('[i16;120]'), layout.element('u8')), (('i16', 120), ('u8', 1)))

    def test_offsets(self) -> None:
        structs = {'A': [('l', 'i32'), ('w', '[i16;3]'), ('b', '[u8;2]')], 'B': [('a', 'A'), ('n', 'i32')]}
        self.assertEqual(layout.laid_out('A', structs), ({'l': 0, 'w': 4, 'b': 10}, 12, 4))
        self.assertEqual(layout.laid_out('B', structs), ({'a': 0, 'n': 12}, 16, 4))

    def test_padding_is_refused(self) -> None:
        with self.assertRaisesRegex(Drift, 'padding before l'):
            layout.laid_out('A', {'A': [('b', 'u8'), ('l', 'i32')]})
        with self.assertRaisesRegex(Drift, 'padding at its end'):
            layout.laid_out('A', {'A': [('l', 'i32'), ('b', 'u8')]})


class Alterations(unittest.TestCase):
    def test_kinds(self) -> None:
        said = [what for what, _ in layout.altered(HEADER)]
        self.assertEqual(sum('exchanged' in what for what in said), 1)
        self.assertEqual(sum('one more' in what for what in said), 3)
        self.assertEqual(sum('left out' in what for what in said), 5)
        self.assertTrue(all(text != HEADER for _, text in layout.altered(HEADER)))

    def test_seen(self) -> None:
        def check(text: str) -> None:
            if text:
                raise Drift('a difference')
        self.assertTrue(layout.seen(check, 'text'))
        self.assertFalse(layout.seen(check, ''))


if __name__ == '__main__':
    unittest.main()
