import random
import unittest
from concurrent.futures import ThreadPoolExecutor

import velejume


def some_block(seed):
    """Up to 8 reads on up to 20 columns, with holes."""
    dice = random.Random(seed)
    columns = dice.randrange(1, 21)
    entry = lambda: "." if dice.random() < 0.4 else f"{dice.randrange(2)}:{dice.randrange(256)}"
    return velejume.block_of("\n".join(" ".join(entry() for _ in range(columns)) for _ in range(dice.randrange(1, 9))))


class Threads(unittest.TestCase):
    def test_as_one_after_the_other(self):
        blocks = [some_block(seed) for seed in range(400)]
        expected = [velejume.phase(block) for block in blocks]
        with ThreadPoolExecutor(8) as pool:
            found = list(pool.map(velejume.phase, blocks))
            verdicts = list(pool.map(velejume.judge, blocks, found))
        self.assertEqual(found, expected)
        self.assertEqual({verdict.number for verdict in verdicts}, {57})


if __name__ == "__main__":
    unittest.main()
