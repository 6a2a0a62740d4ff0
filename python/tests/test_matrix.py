import random
import unittest

import velejume
from vectors import REPOSITORY, phased

PAPER = "0:5 . / 1:3 0:2 / 1:6 1:1 / . 0:2"


class Blocks(unittest.TestCase):
    def test_examples(self):
        examples = REPOSITORY / "examples"
        self.assertEqual(velejume.block_of(PAPER), (examples / "p1.block").read_bytes())
        self.assertEqual(velejume.block_of("0:4 . 1:3 / 0:5 0:5 0:5 / 1:5 1:5 1:5"), (examples / "paired.block").read_bytes())

    def test_rows(self):
        same = [
            "0:5 . /\n1:3 0:2 /\n1:6 1:1 /\n. 0:2\n",
            "0:5 .\n1:3 0:2\n1:6 1:1\n. 0:2",
            "\n\n  0:5 .  \n\n 1:3   0:2\n / 1:6\t1:1\r\n/\n\n. 0:2 \n\n",
            "0:5/1:3 0:2/1:6 1:1/. 0:2",
        ]
        for text in same:
            with self.subTest(text):
                self.assertEqual(velejume.block_of(text), velejume.block_of(PAPER))

    def test_holes_and_empty_reads(self):
        self.assertEqual(velejume.block_of(". / 0:4 . 1:255 .")[9:].hex(), "00020000" + "0008000000040200" + "01ff")
        self.assertEqual(velejume.block_of("", columns=3).hex(), "010000000400030000")
        self.assertEqual(velejume.block_of("0:0", columns=1024)[5:7].hex(), "0400")

    def test_versions(self):
        cells = "000004" + "020000" + "0100ff"
        self.assertEqual(velejume.block_of("0:4 . 1:255", version=2).hex(), "02000000" + "11" + "0003" + "0001" + "000b" + "0000" + cells)
        self.assertEqual(velejume.block_of("0:256").hex(), "02000000" + "0b" + "0001" + "0001" + "0005" + "0000" + "000100")
        self.assertEqual([velejume.block_of(text)[0] for text in ("0:255", "0:256", "1:65535", ".")], [1, 2, 2, 1])
        with self.assertRaisesRegex(ValueError, "^row 2, entry 3: weight 256 is above 255, which takes version 2$"):
            velejume.block_of("0:255 / . 0:1 1:256", version=1)
        for text, version in (("0:256 / . / .", None), ("0:5 / . / .", 2)):
            with self.assertRaisesRegex(ValueError, "^row 2 has no entry: version 2, which weights above 255 take, has no reads without cells$"):
                velejume.block_of(text, version=version)
        for version in (0, 3, -1, "2"):
            with self.assertRaisesRegex(ValueError, f"^version {version}: a block has version 1 or 2$"):
                velejume.block_of("0:5", version=version)

    def test_faults(self):
        faults = {
            "0:5 2:5": "row 1, entry 2: '2:5' is neither",
            "0:5 / 0:65536": "row 2, entry 1: '0:65536' is neither",
            "0:100000": "row 1, entry 1: '0:100000' is neither",
            "0:5\n0:05": "row 2, entry 1: '0:05' is neither",
            "0:": "row 1, entry 1: '0:' is neither",
            "0:+5": "is neither",
            "0:٣": "is neither",
            "..": "is neither",
            "0:5 / / 1:5": "row 2 is empty",
            "0:5 /": "row 2 is empty",
            "/": "row 1 is empty",
            "": "no row says how many columns there are",
            " \n ": "no row says how many columns there are",
            " ".join(["0:1"] * 1025): "1025 columns: a block has 1 to 1024",
            "/".join(["."] * 1025): "1025 rows: a block has at most 1024 reads",
        }
        for text, words in faults.items():
            with self.subTest(text[:20]):
                with self.assertRaises(ValueError) as caught:
                    velejume.block_of(text)
                self.assertIn(words, str(caught.exception))
        sizes = (("0:5 0:5", 1, "row 1 has 2 entries, columns given: 1"), (".", 0, "0 columns"), ("", 1025, "1025 columns"), ("", -1, "-1 columns"))
        for text, columns, words in sizes:
            with self.subTest(text, columns=columns):
                with self.assertRaisesRegex(ValueError, words):
                    velejume.block_of(text, columns)

    def test_wrong_types(self):
        for value in (None, 5, b"0:5", ["0:5"]):
            with self.subTest(repr(value)):
                with self.assertRaises(TypeError):
                    velejume.block_of(value)


class Matrices(unittest.TestCase):
    def test_text(self):
        self.assertEqual(velejume.matrix_of(velejume.block_of(PAPER)), "0:5 . /\n1:3 0:2 /\n1:6 1:1 /\n. 0:2")
        self.assertEqual(velejume.matrix_of(velejume.block_of(".", columns=3)), ". . .")
        self.assertEqual(velejume.matrix_of(velejume.block_of("", columns=3)), "")

    def test_refused(self):
        with self.assertRaises(velejume.Refused) as caught:
            velejume.matrix_of(b"\1\0\0\0\4\0\0\0\0")
        self.assertEqual((caught.exception.number, caught.exception.second), (4, 0))
        with self.assertRaises(velejume.Refused) as caught:
            velejume.matrix_of(b"\2\0\0\0\10\0\1\0\1\0\2\0\0")
        self.assertEqual((caught.exception.number, caught.exception.second), (38, 0))
        crowded = velejume.block_of(" / ".join(["0:1"] * 13))
        self.assertEqual(velejume.matrix_of(crowded), " /\n".join(["0:1"] * 13))

    def test_there_and_back(self):
        """Blocks of the vectors, and random ones: a block has one matrix, and the matrix gives it back."""
        blocks = [case.block for case in phased() if not case.printed.startswith("refused") and case.block[7:9] != b"\0\0"]
        dice = random.Random(1)
        for version, heaviest in ((1, 255), (2, 255), (2, 65535)) * 100:
            columns = dice.randrange(1, 9)
            rows = [[dice.choice([".", f"{dice.randrange(2)}:{dice.randint(0, heaviest)}"]) for _ in range(columns)] for _ in range(dice.randrange(1, 9))]
            if version == 2:
                rows = [row for row in rows if set(row) != {"."}] or [["0:0"]]
            blocks.append(velejume.block_of(" / ".join(map(" ".join, rows)), version=version))
            self.assertEqual(blocks[-1][0], version)
        for block in blocks:
            self.assertEqual(velejume.block_of(velejume.matrix_of(block), version=block[0]), block)


if __name__ == "__main__":
    unittest.main()
