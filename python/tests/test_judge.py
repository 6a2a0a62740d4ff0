import pickle
import unittest

import velejume
from vectors import REPOSITORY, judged
from velejume import _calls

LENT = 0xA5A5A5A5


class Judge(unittest.TestCase):
    def test_vectors(self):
        cases = list(judged())
        for version in (1, 2):
            self.assertGreaterEqual(sum(case.block[:1] == bytes([version]) for case in cases), 130)
        for count, case in enumerate(cases):
            with self.subTest(count):
                work = _calls.work_room(case.lent)
                work[:] = [LENT] * case.lent
                self.assertEqual(_calls.judge_in(case.block, case.answer, work), (case.number, case.second))
                self.assertEqual(list(work), case.work)
                if case.number >= 50:
                    verdict = velejume.judge(case.block, case.answer)
                    self.assertEqual((verdict.number, verdict.least_cost), (case.number, case.second if case.number == 55 else None))
                elif case.number != 10:
                    with self.assertRaises(velejume.Refused) as caught:
                        velejume.judge(case.block, case.answer)
                    self.assertEqual((caught.exception.number, caught.exception.second), (case.number, case.second))

    def test_every_verdict(self):
        """The shipped corpus has an answer for each; here one of each with its words."""
        folder = REPOSITORY / "examples" / "corpus"
        expected = {
            "version-1": (50, None, "malformed"),
            "pair-as-two-reads": (51, None, "other n or m"),
            "pair-not-placed": (52, None, "a side above 1 or a letter above 2"),
            "one-read-column": (53, None, "a - where that side's sums differ"),
            "forgotten-pair": (54, None, "stated cost not the weight of disagreeing entries"),
            "joined-across-the-gap": (55, 0, "not least"),
            "sides-exchanged": (56, None, "least but other sides or letters than ours"),
            "flip-count": (57, None, "ours"),
        }
        for name, (number, least_cost, words) in expected.items():
            with self.subTest(name):
                verdict = velejume.judge((folder / f"{name}.block").read_bytes(), (folder / f"{name}.answer").read_bytes())
                self.assertEqual(verdict, velejume.Verdict(number, words, least_cost))
                self.assertEqual(str(verdict), f"verdict {number} at {least_cost or 0}\n{words}")
                self.assertEqual(verdict.is_least, number >= 56)
                self.assertEqual(pickle.loads(pickle.dumps(verdict)), verdict)

    def test_least_cost(self):
        block = velejume.block_of("0:4 . 1:3 / 0:5 0:5 0:5 / 1:5 1:5 1:5")
        verdict = velejume.judge(block, velejume.answer_of(4, "101", ("000", "111")))
        self.assertEqual((verdict.number, verdict.least_cost), (55, 3))

    def test_our_own_answer(self):
        block = velejume.block_of("0:5 . / 1:3 0:2 / 1:6 1:1 / . 0:2")
        self.assertEqual(velejume.judge(block, velejume.phase(block)).number, 57)
        self.assertEqual(velejume.judge(block, b"").number, 50)


if __name__ == "__main__":
    unittest.main()
