"""What an answer of another program is worth."""

from dataclasses import dataclass
from typing import Optional

_WORDS = {
    50: "malformed",
    51: "other n or m",
    52: "a side above 1 or a letter above 2",
    53: "a - where that side's sums differ",
    54: "stated cost not the weight of disagreeing entries",
    55: "not least",
    56: "least but other sides or letters than ours",
    57: "ours",
}


@dataclass(frozen=True)
class Verdict:
    """The first verdict that applies to an answer. It prints as the program `judge` prints it.

    >>> import velejume
    >>> block = velejume.block_of("0:5 / 1:5")
    >>> verdict = velejume.judge(block, velejume.answer_of(cost=5, sides="00", haplotypes=("-", "-"), flips=1))
    >>> verdict
    Verdict(number=55, words='not least', least_cost=0)
    >>> print(verdict)
    verdict 55 at 0
    not least
    >>> verdict.is_least
    False
    """

    number: int
    words: str
    #: the least cost under 55, None under the others
    least_cost: Optional[int] = None

    @property
    def is_least(self) -> bool:
        """Whether no division with any two haplotypes costs less: 56 and 57."""
        return self.number in (56, 57)

    def __str__(self) -> str:
        return f"verdict {self.number} at {self.least_cost or 0}\n{self.words}"


def read(number: int, second: int) -> Optional[Verdict]:
    """The verdict that the library gives by these numbers, None where they are none."""
    if number not in _WORDS:
        return None
    return Verdict(number, _WORDS[number], second if number == 55 else None)
