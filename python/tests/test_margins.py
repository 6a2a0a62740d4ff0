import itertools
import random
import unittest

import velejume
from vectors import solved
from velejume import _calls

#: matrix, and its margins
EXAMPLES = [
    ("0:5 . / 1:3 0:2 / 1:6 1:1 / . 0:2", ((9, 3), (5, 0))),
    ("0:4 . 1:3 / 0:5 0:5 0:5 / 1:5 1:5 1:5", ((9, 5, 2), (5, 5, 5))),
    ("0:7", ((7,), (0,))),
    ("0:5 / 1:5", ((5,), (5,))),
    ("0:3 / 0:3", ((6,), (0,))),
    ("0:0 / 1:0", ((0,), (0,))),
    ("1:4 .", ((4, 0), (0, 0))),
    ("0:9 1:5 / 0:9 0:5 / 1:9 .", ((18, 0), (9, 0))),
]


def some_matrix(dice, heaviest):
    """Rows of cells, each (letter, weight), or None where there is no entry; every row has one."""
    columns = dice.randrange(1, 7)
    entry = lambda: None if dice.random() < 0.3 else (dice.randrange(2), dice.choice((1, dice.randint(0, heaviest))))
    rows = [[entry() for _ in range(columns)] for _ in range(dice.randrange(1, 9))]
    return [row if any(row) else [(0, 0)] * columns for row in rows]


def disagreeing(rows, sides, haplotypes):
    """The weight of the entries that differ from their side's letter."""
    cells = ((cell, letter) for row, side in zip(rows, sides) for cell, letter in zip(row, haplotypes[side]))
    return sum(cell[1] for cell, letter in cells if cell and cell[0] != letter)


class Margins(unittest.TestCase):
    def test_examples(self):
        for (text, margins), version in itertools.product(EXAMPLES, (1, 2)):
            with self.subTest(text, version=version):
                block = velejume.block_of(text, version=version)
                answer = velejume.phase_margins(block)
                self.assertEqual(answer.margins, margins)
                self.assertEqual(answer, velejume.phase(block))
                first, second = (" ".join(map(str, numbers)) for numbers in margins)
                self.assertEqual(str(answer), f"{velejume.phase(block)}\nmargin1 {first}\nmargin2 {second}")

    def test_table(self):
        block = velejume.block_of("0:5 . / 1:3 0:2 / 1:6 1:1 / . 0:2")
        self.assertEqual(velejume.phase_margins(block, table=True).table, [[5, 3, 0, 5], [1, 3, 1, 4]])
        self.assertIsNone(velejume.phase_margins(block).table)
        self.assertIsNone(velejume.phase(block).margins)

    def test_vectors(self):
        cases = [case for case in solved() if case.mode == "general"]
        self.assertEqual((len(cases), sum(case.number == 13 for case in cases)), (185, 15))
        for count, case in enumerate(cases):
            with self.subTest(count):
                work, out, margins = _calls.work_room(len(case.work)), _calls.output_room(len(case.out)), _calls.work_room(len(case.margins))
                work[:] = [0xA5A5A5A5] * len(case.work)
                out[:] = [0xA5] * len(case.out)
                margins[:] = [0xA5A5A5A5] * len(case.margins)
                self.assertEqual(_calls.phase_margins_in(case.block, work, out, margins), (case.number, case.second))
                self.assertEqual((list(work), bytes(out), list(margins)), (case.work, case.out, case.margins))
                if case.number == 0:
                    answer = velejume.phase_margins(case.block)
                    found = list(itertools.chain(*answer.margins))
                    self.assertEqual((answer.cost, found), (case.second, case.margins[: len(found)]))
                    self.assertEqual(len(found), 2 * len(answer.haplotypes[0]))

    def test_the_other_letter_costs_so_much_more(self):
        """Small matrices: with one letter complemented the entries that disagree weigh its margin more; it is 0 exactly at -."""
        dice, ties, tried = random.Random(8), 0, 0
        for heaviest in (3, 255, 65535) * 100:
            rows = some_matrix(dice, heaviest)
            text = " / ".join(" ".join("{}:{}".format(*cell) if cell else "." for cell in row) for row in rows)
            answer = velejume.phase_margins(velejume.block_of(text, len(rows[0])))
            written = [[int(letter != "0") for letter in letters] for letters in answer.haplotypes]
            self.assertEqual(disagreeing(rows, answer.sides, written), answer.cost, text)
            for side, column in itertools.product((0, 1), range(len(rows[0]))):
                margin = answer.margins[side][column]
                written[side][column] ^= 1
                self.assertEqual(disagreeing(rows, answer.sides, written), answer.cost + margin, text)
                written[side][column] ^= 1
                self.assertEqual(margin == 0, answer.haplotypes[side][column] == "-", text)
                ties += margin == 0
                tried += 1
        self.assertGreater(ties, 100)
        self.assertGreater(tried - ties, 100)

    def test_other_types(self):
        for value in (None, 9, "0:5", ["0:5"], velejume.phase(velejume.block_of("0:7"))):
            with self.subTest(repr(value)):
                with self.assertRaises(TypeError):
                    velejume.phase_margins(value)

    def test_largest(self):
        for version, largest in ((1, 12 * 255), (2, 12 * 65535)):
            row = " ".join([f"1:{largest // 12}"] * 1024)
            answer = velejume.phase_margins(velejume.block_of(" / ".join([row] * 12), version=version))
            self.assertEqual(answer.margins, ((largest,) * 1024, (0,) * 1024))


if __name__ == "__main__":
    unittest.main()
