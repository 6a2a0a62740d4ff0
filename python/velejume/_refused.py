"""Why a block is refused."""

from __future__ import annotations

from typing import Optional

_WORDS = {
    1: "fewer than 9 bytes",
    2: "version neither 1 nor 2",
    3: "length field differs from the bytes present after byte 4",
    4: "no columns, more than 1024 columns or more than 1024 reads",
    5: "read {second}: its length field is cut off, below 2, odd (in version 2: less 2 no multiple of 3), or runs past the block",
    6: "read {second}: no cells and a first column other than 0, or cells past the last column",
    7: "read {second}: a letter above 2, a hole with weight, or a first or last cell that is a hole",
    8: "bytes remain after the last read",
    9: "column {second} has more than 12 active reads",
    10: "the work room is below {second} entries",
    11: "the output is below {second} bytes",
    13: "the margin room is below {second} numbers",
    38: "read {second}: no cells in version 2",
    39: "the output is below the {second} bytes of the converted block",
}


class Refused(ValueError):
    """A block is refused. `number` is the refusal's, 1 to 11, 13, 38 or 39, and `second` its second number: a read, a column or a size, 0 where there is none.

    >>> import velejume
    >>> velejume.phase(b"no block")
    Traceback (most recent call last):
        ...
    velejume.Refused: refused 1 at 0: fewer than 9 bytes
    >>> try:
    ...     velejume.phase(velejume.block_of(". 0:1 /" * 12 + ". 0:1"))
    ... except velejume.Refused as refused:
    ...     print(refused.number, refused.second, refused.words)
    9 1 column 1 has more than 12 active reads
    """

    def __init__(self, number: int, second: int, words: Optional[str] = None) -> None:
        """The words are given where a call has words of its own for a number."""
        super().__init__(*((number, second) if words is None else (number, second, words)))
        self.number = number
        self.second = second
        self._words = words

    @property
    def words(self) -> str:
        """The refusal in words."""
        words = self._words or _WORDS.get(self.number, "a refusal that this module has no words for")
        return words.format(second=self.second)

    def __str__(self) -> str:
        return f"refused {self.number} at {self.second}: {self.words}"
