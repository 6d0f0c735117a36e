"""signals.py: shapes, lengths, and that a seed makes the same again."""
import itertools
import unittest
from array import array
from random import Random

import signals


class Shapes(unittest.TestCase):
    def test_repeated(self) -> None:
        self.assertEqual(signals.repeated(5, [1, 2]).tolist(), [1, 2, 1, 2, 1])

    def test_square(self) -> None:
        self.assertEqual(signals.square(7, 3).tolist(), [32767, 32767, -32768, 32767, 32767, -32768, 32767])
        self.assertEqual(signals.square(4, 2, 5, -5).tolist(), [5, -5, 5, -5])

    def test_ramp_starts_again(self) -> None:
        self.assertEqual(signals.ramp(4, 20000).tolist(), [0, 20000, -25536, -5536])
        self.assertEqual(signals.ramp(3, -20000).tolist(), [0, -20000, 25536])

    def test_jump(self) -> None:
        self.assertEqual(signals.jump(20, 1, 2).tolist(), [1] * 18 + [2] * 2)

    def test_sine(self) -> None:
        self.assertEqual(signals.sine(5, 4, 100).tolist(), [0, 100, 0, -100, 0])

    def test_swell(self) -> None:
        # two equal halves: the envelope is highest in the middle of its four samples
        self.assertEqual(signals.swell(8, 8, 1000, 4, 2), [146, 604, 0, -104, -146, -604, 0, 104])

    def test_faded(self) -> None:
        self.assertEqual(signals.faded(array('h', [1, 2, 3, 4, 5, 6])).tolist(), [1, 2, 0, 0, 0, 0])

    def test_low_bits(self) -> None:
        samples = signals.low_bits(Random(1), array('h', [-32768, -8, 0, 8] * 50))
        self.assertEqual([x & ~7 for x in samples], [-32768, -8, 0, 8] * 50)
        self.assertEqual({x & 7 for x in samples}, set(range(8)))

    def test_noise_keeps_its_level(self) -> None:
        loud, quiet = signals.noise(Random(1), 2000, 32767), signals.noise(Random(1), 2000, 100)
        self.assertTrue(32000 < max(loud) <= 32767 and -32768 <= min(loud) < -32000)
        self.assertTrue(95 < max(quiet) <= 100 and -100 <= min(quiet) < -95)

    def test_clipped_noise(self) -> None:
        samples = signals.clipped_noise(Random(1), 1000)
        self.assertTrue(samples.count(32767) > 300 and samples.count(-32768) > 300)

    def test_held(self) -> None:
        samples = signals.held(Random(1), 5000, range(-30000, 30000))
        lengths = {len(list(group)) for _, group in itertools.groupby(samples[:-40])}
        self.assertEqual((len(samples), lengths), (5000, set(range(1, 41))))

    def test_bursts(self) -> None:
        samples = signals.bursts(Random(1), 2000, lambda size: signals.repeated(size, [9]))
        self.assertEqual((len(samples), set(samples), samples[0]), (2000, {0, 9}, 9))

    def test_buzz_has_its_period(self) -> None:
        samples = signals.buzz(Random(1), 400, 80, 10000, 0.5)
        self.assertEqual([i for i, x in enumerate(samples) if x > 9000], [0, 80, 160, 240, 320])


class Codewords(unittest.TestCase):
    def test_a_frame_has_260_bits(self) -> None:
        self.assertEqual((len(signals.WIDTHS), sum(signals.WIDTHS)), (76, 260))
        self.assertEqual([signals.VALID[i] for i in (0, 7, 8, 9, 11, 12)], [63, 7, 127, 3, 63, 7])
        self.assertEqual([signals.WIDTHS[start] for start in signals.STARTS], [7] * 4)

    def test_random_frames_are_valid(self) -> None:
        frames = signals.random_frames(Random(1), 50)
        self.assertEqual(len(frames), 76 * 50)
        self.assertTrue(all(0 <= word <= signals.VALID[i % 76] for i, word in enumerate(frames)))
        self.assertEqual(max(frames), 127)

    def test_with_fields(self) -> None:
        frames = signals.with_fields(Random(1), 3, 0, [41])
        self.assertEqual([frames[76 * i + start] for i in range(3) for start in signals.STARTS], [41] * 12)
        self.assertNotEqual({frames[76 * i + start + 1] for i in range(3) for start in signals.STARTS}, {41})

    def test_mixed_is_quiet_or_loud(self) -> None:
        frames = signals.mixed(Random(1), 20)
        levels = [{frames[76 * i + start + 3] // 56 for start in signals.STARTS} for i in range(20)]
        self.assertEqual({level for each in levels for level in each}, {0, 1})
        self.assertTrue(all(len(each) == 1 for each in levels))
        self.assertTrue(all(frames[76 * i + start + 1] == 3 for i in range(20) for start in signals.STARTS))

    def test_ends_of_fields(self) -> None:
        frames = signals.ends_of_fields(Random(1), 4)
        self.assertTrue(all(word in (0, signals.VALID[i % 76]) for i, word in enumerate(frames)))
        self.assertEqual((len(frames), min(frames), max(frames)), (304, 0, 127))

    def test_again(self) -> None:
        frames = signals.again(Random(1), 15)
        self.assertEqual(len(frames), 76 * 15)
        self.assertEqual(frames[:76] * 10, frames[:760])
        self.assertNotEqual(frames[:76], frames[760:836])

    def test_all_stray(self) -> None:
        for i, word in enumerate(signals.all_stray(Random(1), 2)):
            self.assertEqual(word | signals.VALID[i % 76], -1)


class Octets(unittest.TestCase):
    def test_of_segments(self) -> None:
        octets = signals.of_segments(Random(1), 500, [0, 7])
        self.assertEqual({(octet ^ 0x55) >> 4 & 7 for octet in octets}, {0, 7})
        self.assertEqual({octet >> 7 for octet in octets}, {0, 1})


class Runs(unittest.TestCase):
    def test_lengths(self) -> None:
        for run in [*signals.sounds(1, 300), *signals.coded(1, 300), *signals.octets(1, 300)]:
            self.assertEqual(len(run.words), run.size * run.frames(), run.name)
            self.assertEqual(run.parts[0][0], 0)
            self.assertTrue(0 < len(run.parts) <= run.frames(), run.name)
        self.assertEqual(sum(run.frames() for run in signals.coded(1, 1000)) // 10, 100)

    def test_a_seed_makes_the_same_again(self) -> None:
        for kinds, size, word in ((signals.SOUNDS, 160, 'h'), (signals.CODED, 76, 'h'), (signals.OCTETS, 160, 'B')):
            made = [[run.words for run in signals.runs(kinds, size, seed, 250, word)] for seed in (1, 1, 2)]
            first, again, other = made
            self.assertEqual(first, again)
            self.assertNotEqual(first, other)

    def test_changing_kinds_depend_on_the_seed(self) -> None:
        for one, other in zip(signals.sounds(1, 250), signals.sounds(2, 250)):
            self.assertEqual(one.words != other.words, one.name in signals.CHANGING, one.name)
        for one, other in zip(signals.octets(1, 250), signals.octets(2, 250)):
            self.assertEqual(one.words != other.words, one.name in signals.CHANGING_OCTETS, one.name)

    def test_part(self) -> None:
        run = signals.Run('a run', 160)
        run.add('one', [0] * 320)
        run.add('two', [0] * 160)
        self.assertEqual((run.frames(), run.part(0), run.part(1), run.part(2)),
                         (3, 'one, its frame 0', 'one, its frame 1', 'two, its frame 0'))


if __name__ == '__main__':
    unittest.main()
