"""states.py: the layout of a record, states as words, what a call may write."""
import unittest
from array import array
from random import Random

import peers
import signals
import states
from states import (BYTES, CODEWORDS, DECODE, DECODE_ALAW, ENCODE, ENCODE_ALAW, HOUSE, PACK, RESIDUAL, SAMPLES, STATE,
                    UNPACK, UNUSED, WORDS, Coder, Decoder)


class Layout(unittest.TestCase):
    def test_parts_fill_the_record(self) -> None:
        # head 48, 16, state 240, samples 168, residual 168, codewords 84, bytes 40, 4
        starts = [0, HOUSE, STATE, SAMPLES, RESIDUAL, CODEWORDS, BYTES, UNUSED, WORDS]
        self.assertEqual([b - a for a, b in zip(starts, starts[1:])], [48, 16, 240, 168, 168, 84, 40, 4])
        self.assertEqual(2 * WORDS, 1536)

    def test_record(self) -> None:
        record = states.record(Random(1), ENCODE, Coder(z1=5, L_z2=-3), list(range(160)), [7] * 76, [255] * 33, {2: 75})
        self.assertEqual((len(record), record[:4].tolist()), (WORDS, [ENCODE, 160, 75, 33]))
        self.assertEqual(record[STATE:STATE + 4].tolist(), [5, 65533, 65535, 0])
        self.assertEqual(record[SAMPLES:SAMPLES + 160].tolist(), list(range(160)))
        self.assertEqual(record[CODEWORDS:CODEWORDS + 76].tolist(), [7] * 76)
        self.assertEqual(record[BYTES:BYTES + 33].tolist(), [255] * 33)

    def test_what_is_not_given_is_in_its_width(self) -> None:
        for seed in range(20):
            record = states.record(Random(seed), DECODE_ALAW)
            self.assertTrue(all(word <= signals.VALID[i] for i, word in enumerate(record[CODEWORDS:CODEWORDS + 76])))
            self.assertTrue(all(word < 256 for word in record[BYTES:UNUSED]) and record[BYTES + 32] < 16)
            self.assertTrue(40 <= record[STATE] <= 120)

    def test_octets_have_other_high_halves_in_some_records(self) -> None:
        octets = list(range(160))
        records = [states.record(Random(seed), ENCODE_ALAW, samples=octets) for seed in range(20)]
        self.assertTrue(all([x & 255 for x in record[SAMPLES:SAMPLES + 160]] == octets for record in records))
        self.assertEqual({max(record[SAMPLES:RESIDUAL]) > 255 for record in records}, {True, False})


class AsWords(unittest.TestCase):
    def test_home(self) -> None:
        self.assertEqual(states.as_words(Coder()), [0] * 140)
        self.assertEqual(states.as_words(Decoder()), [40] + [0] * 137 + [4711, -4711])

    def test_order(self) -> None:
        coder = Coder(1, 2 * 65536 + 3, 4, list(range(8)), list(range(10, 18)), list(range(100, 220)))
        self.assertEqual(states.signed(x & 65535 for x in states.as_words(coder)),
                         [1, 3, 2, 4, *range(8), *range(10, 18), *range(100, 220)])
        decoder = Decoder(list(range(100, 220)), 41, list(range(8)), list(range(10, 18)), 5)
        self.assertEqual(states.as_words(decoder)[:138], [41, 5, *range(8), *range(10, 18), *range(100, 220)])

    def test_back(self) -> None:
        for seed in range(10):
            for call in (ENCODE, DECODE):
                state = states.any_state(Random(seed), call)
                words = states.signed(x & 65535 for x in states.as_words(state))
                self.assertEqual(states.from_words(call, words), state)

    def test_linear(self) -> None:
        self.assertEqual([states.linear(call) for call in range(1, 8)], [1, 2, 3, 4, ENCODE, DECODE, 7])

    def test_signed(self) -> None:
        self.assertEqual(states.signed([0, 32767, 32768, 65535]), [0, 32767, -32768, -1])


class Sound(unittest.TestCase):
    def test_random_states(self) -> None:
        for seed in range(50):
            for coder in (states.random_coder(Random(seed)), states.quiet(Random(seed), ENCODE, 32767)):
                assert isinstance(coder, Coder)
                self.assertTrue(-16384 <= coder.z1 <= 16380)
                self.assertTrue(-536740337 <= coder.L_z2 - 32768 * coder.z1 <= 536871409)
            decoder = states.random_decoder(Random(seed))
            self.assertTrue(40 <= decoder.nrp <= 120)

    def test_around(self) -> None:
        self.assertEqual(states.around((40, 120)), (39, 40, 120, 121))

    def test_unsound(self) -> None:
        for seed in range(10):
            coder, decoder = states.unsound(Random(seed), ENCODE_ALAW), states.unsound(Random(seed), DECODE)
            assert isinstance(coder, Coder) and isinstance(decoder, Decoder)
            self.assertIn(coder.z1, (-16385, 16381))
            self.assertIn(decoder.nrp, (39, 121))


class Answers(unittest.TestCase):
    def written(self, call: int, number: int) -> list[int]:
        """The indices that an answer may change."""
        given, answer = array('H', [1] * WORDS), array('H', [2] * WORDS)
        given[0], answer[0] = call, number
        return [i for i, x in enumerate(states.with_its_own(given, answer)) if x == 2]

    def test_what_a_call_may_write(self) -> None:
        self.assertEqual(self.written(ENCODE, 0), [*range(1, 6), *range(STATE, STATE + 140),
                                                   *range(CODEWORDS, CODEWORDS + 76)])
        self.assertEqual(self.written(DECODE, 0), [*range(STATE, STATE + 138), *range(SAMPLES, SAMPLES + 160)])
        self.assertEqual(self.written(PACK, 0), list(range(BYTES, BYTES + 33)))
        self.assertEqual(self.written(UNPACK, 0), list(range(CODEWORDS, CODEWORDS + 76)))

    def test_a_refusal_writes_its_number_alone(self) -> None:
        self.assertEqual(self.written(ENCODE, 3), [])
        answer = states.with_its_own(array('H', [ENCODE] * WORDS), array('H', [3] * WORDS))
        self.assertEqual(answer[:HOUSE].tolist(), [3] + [0] * 47)

    def test_pre_emphasis_by_hand(self) -> None:
        # 4.2.1: 8 gives so = 4. 4.2.2: L_z2 = 4 * 32768, sof = 4. Then so = 0: L_z2 = -4 * 32768 + 4 * 32735 = -132,
        # sof = 0. 4.2.3: s = 4, then 0 + mult_r(4, -28180) = -3.
        self.assertEqual(list(states.pre_emphasised([8, 0], 0, 0, 0)), [4, -3])
        self.assertEqual(list(states.pre_emphasised([-32768], 0, 0, 32767)), [-16384 - 28179])

    def test_clips(self) -> None:
        record = states.record(Random(1), ENCODE, Coder(mp=32767), [-32768] + [0] * 159)
        self.assertEqual(states.clips_met(record, record), set(states.CLIPS[:2]))
        record = states.record(Random(1), DECODE, Decoder(LARpp=[32767] * 8))
        self.assertEqual(states.clips_met(record, record), {states.CLIPS[2]})
        record = states.record(Random(1), ENCODE, Coder(), [0] * 160)
        self.assertEqual(states.clips_met(record, record), set())


class ValidBits(unittest.TestCase):
    def test_valid_bits(self) -> None:
        coded = array('H', [0xFFFF] * 152)
        self.assertEqual(peers.valid_bits(coded.tobytes()).tolist(), signals.VALID * 2)
        self.assertEqual(peers.valid_bits(array('H', [0x0140, 1]).tobytes()).tolist(), [0, 1])


if __name__ == '__main__':
    unittest.main()
