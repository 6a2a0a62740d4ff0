import array
import unittest

import velejume

BLOCK = velejume.block_of("0:5 . / 1:3 0:2 / 1:6 1:1 / . 0:2")
ANSWER = velejume.phase(BLOCK)


class Named(bytes):
    pass


class Inputs(unittest.TestCase):
    def test_bytes_of_every_kind(self):
        doubled = bytes(byte for byte in BLOCK for _ in range(2))
        backwards = memoryview(BLOCK[::-1])
        kinds = [
            bytearray(BLOCK),
            memoryview(BLOCK),
            memoryview(bytearray(BLOCK)),
            memoryview(b"\0" + BLOCK)[1:],
            memoryview(doubled)[::2],
            backwards[::-1],
            array.array("B", BLOCK),
            Named(BLOCK),
        ]
        for kind in kinds:
            with self.subTest(type(kind).__name__):
                self.assertEqual(velejume.phase(kind), ANSWER)
                self.assertEqual(velejume.phase_heterozygous(kind), velejume.phase_heterozygous(BLOCK))
                self.assertEqual(velejume.phase_margins(kind).margins, ((9, 3), (5, 0)))
                self.assertEqual(velejume.judge(kind, bytearray(ANSWER.block)).number, 57)
                self.assertEqual(velejume.judge(kind, memoryview(ANSWER.block)).number, 57)
                self.assertEqual(velejume.matrix_of(kind), velejume.matrix_of(BLOCK))
                self.assertEqual(velejume.convert(kind), velejume.convert(BLOCK))

    def test_inputs_are_kept(self):
        block, answer = bytearray(BLOCK), bytearray(ANSWER.block)
        velejume.phase(block)
        velejume.phase_heterozygous(block)
        velejume.phase_margins(block)
        velejume.judge(block, answer)
        velejume.convert(block)
        self.assertEqual((bytes(block), bytes(answer)), (BLOCK, ANSWER.block))
        block += b"\0"  # no view of it is left

    def test_other_types(self):
        wrong = [None, 9, 1.5, "0:5", ["0:5"], [1, 0, 0], object(), array.array("H", [1, 2]), array.array("I", [1])]
        judging = (lambda block: velejume.judge(block, b""), lambda answer: velejume.judge(BLOCK, answer))
        for value in wrong:
            with self.subTest(repr(value)):
                for call in (velejume.phase, velejume.phase_heterozygous, velejume.matrix_of, velejume.convert, *judging):
                    with self.assertRaises(TypeError):
                        call(value)

    def test_text_says_what_to_do(self):
        with self.assertRaisesRegex(TypeError, "^block is bytes, not str: block_of "):
            velejume.phase("0:5")
        with self.assertRaisesRegex(TypeError, "^answer is bytes, not int$"):
            velejume.judge(BLOCK, 5)

    def test_an_answer_is_no_block(self):
        with self.assertRaises(TypeError):
            velejume.phase(ANSWER)


if __name__ == "__main__":
    unittest.main()
