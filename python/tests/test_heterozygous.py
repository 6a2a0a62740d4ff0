import itertools
import random
import unittest

import velejume
from vectors import solved

#: matrix, and what is printed of it in the all-heterozygous mode
EXAMPLES = [
    ("0:5 . / 1:3 0:2 / 1:6 1:1 / . 0:2", "cost 1 | flips 1 | sides 1000 | hap1 10 | hap2 01"),
    ("0:4 . 1:3 / 0:5 0:5 0:5 / 1:5 1:5 1:5", "cost 3 | flips 1 | sides 001 | hap1 000 | hap2 111"),
    ("0:7", "cost 0 | flips 0 | sides 0 | hap1 0 | hap2 1"),
    ("0:3 / 0:3", "cost 0 | flips 0 | sides 00 | hap1 0 | hap2 1"),
    ("0:0 / 1:0", "cost 0 | flips 1 | sides 00 | hap1 - | hap2 -"),
    ("1:4 .", "cost 0 | flips 0 | sides 0 | hap1 1- | hap2 0-"),
    ("1:4 0:0", "cost 0 | flips 1 | sides 0 | hap1 1- | hap2 0-"),
    ("0:9 0:9 0:5 / 1:9 1:9 0:5", "cost 5 | flips 1 | sides 01 | hap1 00- | hap2 11-"),
    ("0:1 1:1 / 1:4 1:4", "cost 1 | flips 1 | sides 00 | hap1 11 | hap2 00"),
]


def some_matrix(dice, heaviest):
    """Rows of cells, each (letter, weight), or None where there is no entry; every row has one."""
    columns = dice.randrange(1, 5)
    entry = lambda: None if dice.random() < 0.2 else (dice.randrange(2), dice.choice((1, dice.randint(0, heaviest))))
    rows = [[entry() for _ in range(columns)] for _ in range(dice.randrange(1, 6))]
    return [row if any(row) else [(0, 0)] * columns for row in rows]


def disagreeing(rows, sides, first):
    """Weights of the entries that differ from this string on side 0 and from its complement on side 1."""
    cells = ((cell, letter ^ side) for row, side in zip(rows, sides) for cell, letter in zip(row, first))
    return [cell[1] for cell, letter in cells if cell and cell[0] != letter]


class Heterozygous(unittest.TestCase):
    def test_examples(self):
        for (text, printed), version in itertools.product(EXAMPLES, (1, 2)):
            with self.subTest(text, version=version):
                answer = velejume.phase_heterozygous(velejume.block_of(text, version=version))
                self.assertEqual(str(answer), printed.replace(" | ", "\n"))

    def test_table(self):
        block = velejume.block_of("0:5 . / 1:3 0:2 / 1:6 1:1 / . 0:2")
        answer = velejume.phase_heterozygous(block, table=True)
        self.assertEqual(answer.table, [[5, 3, 0, 6], [1, 3, 2, 5]])
        self.assertIsNone(velejume.phase_heterozygous(block).table)

    def test_vectors(self):
        cases = [case for case in solved() if case.mode == "het"]
        self.assertEqual(len(cases), 115)
        for count, case in enumerate(cases):
            with self.subTest(count):
                if case.number == 0:
                    answer = velejume.phase_heterozygous(case.block, table=True)
                    entries = list(itertools.chain(*answer.table))
                    self.assertEqual((answer.block, entries), (case.out[: len(answer.block)], case.work[: len(entries)]))
                    self.assertEqual(answer.cost, case.second)
                elif case.number in (10, 11):
                    self.assertGreaterEqual(velejume.phase_heterozygous(case.block).cost, velejume.phase(case.block).cost)
                else:
                    with self.assertRaises(velejume.Refused) as caught:
                        velejume.phase_heterozygous(case.block)
                    self.assertEqual((caught.exception.number, caught.exception.second), (case.number, case.second))

    def test_every_division_with_every_string(self):
        """Tiny matrices: no division with a string and its complement costs less, and no cost is below the general one."""
        dice, above, ties = random.Random(7), 0, 0
        for heaviest in (3, 255, 65535) * 150:
            rows = some_matrix(dice, heaviest)
            text = " / ".join(" ".join("{}:{}".format(*cell) if cell else "." for cell in row) for row in rows)
            block = velejume.block_of(text, len(rows[0]))
            answer, general = velejume.phase_heterozygous(block), velejume.phase(block)
            divisions = itertools.product((0, 1), repeat=len(rows))
            strings = list(itertools.product((0, 1), repeat=len(rows[0])))
            least = min(sum(disagreeing(rows, sides, first)) for sides in divisions for first in strings)
            self.assertEqual(answer.cost, least, text)
            self.assertGreaterEqual(answer.cost, general.cost, text)
            self.assertTrue(all(pair in (("0", "1"), ("1", "0"), ("-", "-")) for pair in zip(*answer.haplotypes)), text)
            written = disagreeing(rows, answer.sides, [int(letter != "0") for letter in answer.haplotypes[0]])
            self.assertEqual((sum(written), len(written)), (answer.cost, answer.flips), text)
            above += answer.cost > general.cost
            ties += "-" in answer.haplotypes[0]
        self.assertGreater(above, 30)
        self.assertGreater(ties, 30)


if __name__ == "__main__":
    unittest.main()
