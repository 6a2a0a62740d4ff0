import random
import unittest

import velejume
from vectors import converted
from velejume import _calls


class Convert(unittest.TestCase):
    def test_vectors(self):
        cases = list(converted())
        self.assertEqual(len(cases), 150)
        for count, case in enumerate(cases):
            with self.subTest(count):
                out = _calls.output_room(len(case.out))
                out[:] = [0xA5] * len(case.out)
                self.assertEqual(_calls.convert_in(case.block, out), (case.number, case.second))
                self.assertEqual(bytes(out), case.out)
                if case.number == 0:
                    wide = velejume.convert(case.block)
                    self.assertEqual((wide, case.out[len(wide) :].strip(b"\xa5")), (case.out[: len(wide)], b""))
                elif case.number == 39:
                    self.assertEqual(len(velejume.convert(case.block)), case.second)
                else:
                    with self.assertRaises(velejume.Refused) as caught:
                        velejume.convert(case.block)
                    self.assertEqual((caught.exception.number, caught.exception.second), (case.number, case.second))

    def test_other_versions(self):
        wide = velejume.block_of("0:7", version=2)
        for block in (wide, b"\0" + wide[1:], b"\3" + wide[1:], wide + b"\0"):
            with self.assertRaisesRegex(velejume.Refused, "^refused 2 at 0: version not 1$"):
                velejume.convert(block)

    def test_what_is_kept(self):
        """Random matrices with rows of dots: the others are the rows of the converted block, with their sides, and all else is the same."""
        dice, shorter = random.Random(3), 0
        for _ in range(300):
            columns = dice.randrange(1, 7)
            rows = [[dice.choice([".", f"{dice.randrange(2)}:{dice.randrange(256)}"]) for _ in range(columns)] for _ in range(dice.randrange(1, 9))]
            kept = [count for count, row in enumerate(rows) if set(row) != {"."}]
            narrow = velejume.block_of(" / ".join(map(" ".join, rows)), columns)
            wide = velejume.convert(narrow)
            self.assertEqual(wide, velejume.block_of(" / ".join(" ".join(rows[count]) for count in kept), columns, version=2))
            before, after = velejume.phase(narrow, table=True), velejume.phase(wide, table=True)
            self.assertEqual((before.cost, before.flips, before.haplotypes, before.table), (after.cost, after.flips, after.haplotypes, after.table))
            self.assertEqual(tuple(before.sides[count] for count in kept), after.sides)
            shorter += len(kept) < len(rows)
        self.assertGreater(shorter, 50)

    def test_largest(self):
        """1,024 reads of 1,024 cells: more active reads than `phase` accepts."""
        narrow = velejume.block_of("/".join([" ".join(["1:255"] * 1024)] * 1024))
        read = b"\x0c\x02\0\0" + b"\1\0\xff" * 1024
        self.assertTrue(velejume.convert(narrow) == bytes.fromhex("02003010040400" + "0400") + read * 1024)


if __name__ == "__main__":
    unittest.main()
