import pickle
import unittest

import velejume
from vectors import phased


class Answers(unittest.TestCase):
    def test_parts_make_the_block(self):
        for case in phased():
            if not case.printed.startswith("refused"):
                answer = velejume.phase(case.block)
                self.assertEqual(velejume.answer_of(answer.cost, answer.sides, answer.haplotypes, answer.flips), answer.block)

    def test_sides_as_text_or_numbers(self):
        self.assertEqual(velejume.answer_of(1, "10", ("-", "1")), velejume.answer_of(1, [1, 0], ("-", "1"), flips=0))
        self.assertEqual(velejume.answer_of(0, "", ("-", "-")).hex(), "020000000e" + "00000000" * 2 + "00000001" + "0202")

    def test_faults(self):
        faults = [
            ((0, "2", ("0", "0")), "a side is 0 or 1"),
            ((0, (0, 3), ("0", "0")), "a side is 0 or 1"),
            ((0, "0", ("01", "0")), "2 and 1 letters"),
            ((0, "0", ("2", "0")), "a letter is 0, 1 or -"),
            ((-1, "0", ("0", "0")), "32 bits"),
            ((1 << 32, "0", ("0", "0")), "32 bits"),
            ((0, "0" * 65536, ("0", "0")), "16"),
        ]
        for parts, words in faults:
            with self.subTest(words):
                with self.assertRaisesRegex(ValueError, words):
                    velejume.answer_of(*parts)

    def test_pickled(self):
        answer = velejume.phase(velejume.block_of("0:5 / 1:5"), table=True)
        again = pickle.loads(pickle.dumps(answer))
        self.assertEqual((again, again.table), (answer, answer.table))


if __name__ == "__main__":
    unittest.main()
