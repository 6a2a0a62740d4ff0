"""The answer, and the answer block."""

from dataclasses import dataclass, field
from typing import Iterable, Optional, Union

_VERSION = 2
_MARKS = "01-"


@dataclass(frozen=True)
class Answer:
    """The answer for a block. It prints as the program `phase` prints it.

    >>> import velejume
    >>> answer = velejume.phase(velejume.block_of("0:5 . / 1:3 0:2 / 1:6 1:1 / . 0:2"))
    >>> answer
    Answer(cost=1, flips=1, sides=(1, 0, 0, 0), haplotypes=('10', '0-'))
    >>> print(answer)
    cost 1
    flips 1
    sides 1000
    hap1 10
    hap2 0-
    >>> answer.block.hex()
    '02000000140000000100000001000400020100000001000002'
    """

    cost: int
    #: how many entries differ from their side's letter
    flips: int
    #: 0 or 1, by read number
    sides: tuple[int, ...]
    #: the haplotypes of side 0 and of side 1, a letter a column: 0, 1, or - where both cost the same
    haplotypes: tuple[str, str]
    #: the answer block, version 2
    block: bytes = field(repr=False)
    #: where it was asked for, the table: for each column its T least sums
    table: Optional[list[list[int]]] = field(default=None, repr=False, compare=False)
    #: of `phase_margins`, for each haplotype its margins, a number a column: what the other letter would cost more, 0 exactly at -
    margins: Optional[tuple[tuple[int, ...], tuple[int, ...]]] = field(default=None, repr=False, compare=False)

    def __str__(self) -> str:
        sides = "".join(map(str, self.sides)) or "none"
        first, second = self.haplotypes
        lines = [f"cost {self.cost}", f"flips {self.flips}", f"sides {sides}", f"hap1 {first}", f"hap2 {second}"]
        for count, margins in enumerate(self.margins or (), 1):
            lines.append(f"margin{count} " + " ".join(map(str, margins)))
        return "\n".join(lines)


def _columns(entries: list[int], columns: int) -> list[list[int]]:
    width = len(entries) // columns
    return [entries[column * width : (column + 1) * width] for column in range(columns)]


def read(block: bytes, entries: Optional[list[int]]) -> Answer:
    """The answer in a block that the library wrote, and the table of these entries."""
    reads, columns = int.from_bytes(block[13:15], "big"), int.from_bytes(block[15:17], "big")
    sides, letters = block[17 : 17 + reads], "".join(_MARKS[mark] for mark in block[17 + reads :])
    return Answer(
        cost=int.from_bytes(block[5:9], "big"),
        flips=int.from_bytes(block[9:13], "big"),
        sides=tuple(sides),
        haplotypes=(letters[:columns], letters[columns:]),
        block=block,
        table=None if entries is None else _columns(entries, columns),
    )


def answer_of(cost: int, sides: Union[str, Iterable[int]], haplotypes: tuple[str, str], flips: int = 0) -> bytes:
    """The answer block with this cost, these sides, by read number, and the haplotypes of side 0 and side 1, for `judge`. Nothing is
    judged here, and the number of flips is not judged at all.

    >>> import velejume
    >>> velejume.answer_of(cost=1, sides="1000", haplotypes=("10", "0-")).hex()
    '02000000140000000100000000000400020100000001000002'
    >>> velejume.answer_of(1, (1, 0, 0, 0), ("10", "0-")) == velejume.answer_of(1, "1000", ("10", "0-"))
    True
    """
    marks = [str(side) for side in sides]
    if not all(mark in ("0", "1") for mark in marks):
        raise ValueError("a side is 0 or 1")
    first, second = haplotypes
    if len(first) != len(second):
        raise ValueError(f"the haplotypes have {len(first)} and {len(second)} letters")
    if not all(letter in _MARKS for letter in first + second):
        raise ValueError("a letter is 0, 1 or -")
    try:
        rest = (
            cost.to_bytes(4, "big")
            + flips.to_bytes(4, "big")
            + len(marks).to_bytes(2, "big")
            + len(first).to_bytes(2, "big")
            + bytes(map(int, marks))
            + bytes(map(_MARKS.index, first + second))
        )
    except OverflowError as fault:
        raise ValueError("cost and flips are numbers of 32 bits, reads and columns are counted in 16") from fault
    return bytes([_VERSION]) + len(rest).to_bytes(4, "big") + rest
