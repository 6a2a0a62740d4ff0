import itertools
import random
import unittest

import velejume
from vectors import REPOSITORY, phased, solved
from velejume import _calls
from velejume._library import library

PROGRAMS_ROOM = 16384
#: the C calls by the modes of the vectors
CALLS = {"general": library.velejume_phase, "het": library.velejume_phase_heterozygous}


class Phase(unittest.TestCase):
    def test_vectors(self):
        cases = list(phased())
        self.assertGreaterEqual(len(cases), 162)
        for case in cases:
            with self.subTest(case.name):
                words = case.printed.split()
                if words[:2] == ["refused", "10"]:
                    # only the program's room is too small
                    numbers = _calls.phase_in(case.block, _calls.work_room(PROGRAMS_ROOM), _calls.output_room(3089))
                    self.assertEqual(numbers, (10, int(words[3])))
                    self.assertEqual(velejume.judge(case.block, velejume.phase(case.block)).number, 57)
                elif words[0] == "refused":
                    with self.assertRaises(velejume.Refused) as caught:
                        velejume.phase(case.block)
                    self.assertEqual((caught.exception.number, caught.exception.second), (int(words[1]), int(words[3])))
                else:
                    self.assertEqual(str(velejume.phase(case.block)), case.printed)

    def test_vectors_of_both_versions_and_modes(self):
        # 13 is of calls with margins
        cases = [case for case in solved() if case.number != 13]
        for version, mode in itertools.product((1, 2), CALLS):
            self.assertGreaterEqual(sum((case.block[:1], case.mode) == (bytes([version]), mode) for case in cases), 40)
        for count, case in enumerate(cases):
            with self.subTest(count):
                work, out = _calls.work_room(len(case.work)), _calls.output_room(len(case.out))
                work[:] = [0xA5A5A5A5] * len(case.work)
                out[:] = [0xA5] * len(case.out)
                self.assertEqual(_calls.phase_in(case.block, work, out, CALLS[case.mode]), (case.number, case.second))
                self.assertEqual((list(work), bytes(out)), (case.work, case.out))

    def test_weights_of_two_bytes(self):
        block = velejume.block_of("0:1024 . 1:769 / 0:1281 0:1281 0:1281 / 1:1281 1:1281 1:1281")
        self.assertEqual(block[0], 2)
        answer = velejume.phase(block, table=True)
        self.assertEqual(str(answer), "cost 769\nflips 1\nsides 001\nhap1 000\nhap2 111")
        self.assertEqual(answer.table[0], [1281, 1024, 0, 1281])
        narrow, wide = (velejume.block_of("0:4 . 1:3 / 0:5 0:5 0:5 / 1:5 1:5 1:5", version=version) for version in (1, 2))
        self.assertEqual(velejume.phase(narrow), velejume.phase(wide))

    def test_parts(self):
        block = (REPOSITORY / "examples" / "p1.block").read_bytes()
        answer = velejume.phase(block)
        self.assertEqual((answer.cost, answer.flips, answer.sides, answer.haplotypes), (1, 1, (1, 0, 0, 0), ("10", "0-")))
        self.assertEqual(answer.block, (REPOSITORY / "examples" / "p1.answer").read_bytes())
        self.assertIsNone(answer.table)

    def test_table(self):
        block = velejume.block_of("0:5 . / 1:3 0:2 / 1:6 1:1 / . 0:2")
        with_table = velejume.phase(block, table=True)
        self.assertEqual(with_table.table, [[5, 3, 0, 5], [1, 3, 1, 4]])
        self.assertEqual(with_table, velejume.phase(block))
        self.assertEqual(hash(with_table), hash(velejume.phase(block)))

    def test_no_reads(self):
        answer = velejume.phase(velejume.block_of("", columns=2))
        self.assertEqual(str(answer), "cost 0\nflips 0\nsides none\nhap1 --\nhap2 --")
        self.assertEqual((answer.sides, answer.haplotypes), ((), ("--", "--")))

    def test_frozen(self):
        with self.assertRaises(AttributeError):
            velejume.phase(velejume.block_of("0:7")).cost = 0

    def test_largest_accepted_block(self):
        """Twelve rows of reads end to end, 1,024 reads in all: every column has 12 active reads."""
        lengths = [[12] * 84 + [16] for _ in range(8)] + [[12] * 85 + [4] for _ in range(4)]
        reads = []
        for row in lengths:
            self.assertEqual(sum(row), 1024)
            ends = [sum(row[: count + 1]) for count in range(len(row))]
            reads += [(end - length, length) for end, length in zip(ends, row)]
        self.assertEqual(len(reads), 1024)
        dice = random.Random(5)
        for version, weight, size in ((1, 1, 28681), (2, 2, 40969)):
            body = bytearray((1024).to_bytes(2, "big") * 2)
            for first, length in reads:
                body += (2 + (1 + weight) * length).to_bytes(2, "big") + first.to_bytes(2, "big")
                for _ in range(length):
                    body += bytes((dice.randrange(2), *(dice.randrange(256) for _ in range(weight))))
            block = bytes([version]) + len(body).to_bytes(4, "big") + body
            self.assertEqual(len(block), size)
            answer = velejume.phase(block)
            self.assertEqual(len(answer.block), 3089)
            self.assertEqual(velejume.judge(block, answer).number, 57)


if __name__ == "__main__":
    unittest.main()
