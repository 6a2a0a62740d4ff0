import pickle
import unittest

import velejume
from velejume import _calls

ONE = velejume.block_of("0:7")

#: number, second number, a block that gets them
CASES = [
    (1, 0, b""),
    (1, 0, ONE[:8]),
    (2, 0, b"\0" + ONE[1:]),
    (2, 0, b"\3" + ONE[1:]),
    (3, 0, ONE + b"\0"),
    (3, 0, ONE[:-1]),
    (4, 0, bytes([1, 0, 0, 0, 4, 0, 0, 0, 0])),
    (4, 0, bytes([1, 0, 0, 0, 4, 4, 1, 0, 0])),
    (4, 0, bytes([1, 0, 0, 0, 4, 0, 1, 4, 1])),
    (5, 0, bytes([1, 0, 0, 0, 4, 0, 1, 0, 1])),
    (5, 1, bytes([1, 0, 0, 0, 12, 0, 1, 0, 2, 0, 4, 0, 0, 0, 7, 0, 1])),
    (5, 0, bytes([2, 0, 0, 0, 10, 0, 1, 0, 1, 0, 4, 0, 0, 0, 7])),
    (5, 0, bytes([2, 0, 0, 0, 9, 0, 1, 0, 1, 0, 1, 0, 0, 0])),
    (38, 0, bytes([2, 0, 0, 0, 8, 0, 1, 0, 1, 0, 2, 0, 0])),
    (38, 1, bytes([2, 0, 0, 0, 15, 0, 1, 0, 2, 0, 5, 0, 0, 0, 0, 7, 0, 2, 0, 7])),
    (6, 0, bytes([1, 0, 0, 0, 8, 0, 1, 0, 1, 0, 2, 0, 1])),
    (6, 0, bytes([1, 0, 0, 0, 12, 0, 1, 0, 1, 0, 6, 0, 0, 0, 7, 0, 7])),
    (7, 0, bytes([1, 0, 0, 0, 10, 0, 1, 0, 1, 0, 4, 0, 0, 2, 0])),
    (7, 0, bytes([1, 0, 0, 0, 10, 0, 1, 0, 1, 0, 4, 0, 0, 3, 0])),
    (7, 0, bytes([2, 0, 0, 0, 17, 0, 3, 0, 1, 0, 11, 0, 0, 0, 0, 7, 2, 1, 0, 0, 0, 7])),
    (7, 0, bytes([2, 0, 0, 0, 17, 0, 3, 0, 1, 0, 11, 0, 0, 0, 0, 7, 2, 0, 1, 0, 0, 7])),
    (8, 0, bytes([1, 0, 0, 0, 5, 0, 1, 0, 0, 0])),
    (9, 2, velejume.block_of(" / ".join([". . 0:1"] * 13))),
]


class Refusals(unittest.TestCase):
    def test_both_numbers(self):
        self.assertEqual({number for number, _, _ in CASES}, {*range(1, 10), 38})
        for number, second, block in CASES:
            for call in (velejume.phase, velejume.phase_heterozygous, velejume.phase_margins, lambda given: velejume.judge(given, velejume.phase(ONE))):
                with self.subTest(number=number, block=block.hex()[:40]):
                    with self.assertRaises(velejume.Refused) as caught:
                        call(block)
                    self.assertEqual((caught.exception.number, caught.exception.second), (number, second))
                    self.assertTrue(str(caught.exception).startswith(f"refused {number} at {second}: "))

    def test_rooms(self):
        """10, 11, 13 and 39 are of rooms, which the calls of this module make large enough."""
        self.assertEqual(_calls.phase_in(ONE, _calls.work_room(0), _calls.output_room(0)), (10, 1))
        self.assertEqual(_calls.phase_in(ONE, _calls.work_room(1), _calls.output_room(19)), (11, 20))
        rooms = lambda out, margins: (_calls.work_room(1), _calls.output_room(out), _calls.work_room(margins))
        self.assertEqual(_calls.phase_margins_in(ONE, *rooms(19, 1)), (11, 20))
        self.assertEqual(_calls.phase_margins_in(ONE, *rooms(20, 1)), (13, 2))
        self.assertEqual(_calls.phase_margins_in(ONE, *rooms(20, 2)), (0, 0))
        self.assertEqual(_calls.judge_in(ONE, b"", _calls.work_room(0)), (10, 1))
        self.assertEqual(_calls.convert_in(ONE, _calls.output_room(15)), (39, 16))

    def test_words(self):
        said = {number: str(velejume.Refused(number, 6)) for number in (*range(1, 12), 13, 38, 39)}
        self.assertEqual(len(set(said.values())), 14)
        for number in (5, 38, 6, 7):
            self.assertIn("read 6:", said[number])
        self.assertIn("column 6 ", said[9])
        self.assertIn("6 entries", said[10])
        self.assertIn("6 numbers", said[13])
        for number in (11, 39):
            self.assertIn("6 bytes", said[number])
        self.assertIn("no words", str(velejume.Refused(99, 0)))

    def test_is_an_exception_of_values(self):
        self.assertTrue(issubclass(velejume.Refused, ValueError))
        again = pickle.loads(pickle.dumps(velejume.Refused(9, 2)))
        self.assertEqual((again.number, again.second, str(again)), (9, 2, "refused 9 at 2: column 2 has more than 12 active reads"))
        again = pickle.loads(pickle.dumps(velejume.Refused(2, 0, "version not 1")))
        self.assertEqual((again.number, again.second, str(again)), (2, 0, "refused 2 at 0: version not 1"))


if __name__ == "__main__":
    unittest.main()
