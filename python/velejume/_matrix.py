"""The matrix notation: `0:5 . / 1:3 0:2`, a row for each read."""

from __future__ import annotations

import re
from typing import Optional

from ._calls import Bytes, bytes_of, output_room, phase_in, work_room
from ._refused import Refused

_MOST = 1024
_ACTIVE_READS, _WORK_ROOM = 9, 10
_ENTRY = re.compile(r"([01]):(0|[1-9][0-9]{0,4})")
_HOLE = (2, 0)
#: by version, how heavy an entry can be and the bytes of its weight
_HEAVIEST = {1: 255, 2: 65535}
_WEIGHT_BYTES = {1: 1, 2: 2}

#: a letter and a weight
_Cell = tuple[int, int]


def _cell(row: int, entry: int, word: str) -> _Cell:
    if word == ".":
        return _HOLE
    found = _ENTRY.fullmatch(word)
    if found is None or int(found[2]) > _HEAVIEST[2]:
        raise ValueError(f"row {row}, entry {entry}: '{word}' is neither '.' nor a letter 0 or 1, ':' and a weight 0 to {_HEAVIEST[2]}")
    return int(found[1]), int(found[2])


def _rows(text: str) -> list[list[_Cell]]:
    """The cells of each row, dots around its entries included."""
    lines: list[str] = []
    for part in text.split("/") if text.strip() else []:
        lines += [line for line in part.split("\n") if line.strip()] or [part]
    rows = [[_cell(row, entry, word) for entry, word in enumerate(line.split(), 1)] for row, line in enumerate(lines, 1)]
    for row, cells in enumerate(rows, 1):
        if not cells:
            raise ValueError(f"row {row} is empty: a read without cells is written '.'")
    return rows


def _version(rows: list[list[_Cell]], given: Optional[int]) -> int:
    """The version that is given, or the least that holds the weights."""
    if given not in (None, 1, 2):
        raise ValueError(f"version {given}: a block has version 1 or 2")
    for row, cells in enumerate(rows, 1):
        for entry, (_, weight) in enumerate(cells, 1):
            if weight > _HEAVIEST[1]:
                if given == 1:
                    raise ValueError(f"row {row}, entry {entry}: weight {weight} is above {_HEAVIEST[1]}, which takes version 2")
                return 2
    return given or 1


def block_of(text: str, columns: Optional[int] = None, version: Optional[int] = None) -> bytes:
    """The fragment block of a matrix. Rows are separated by `/` or a newline, or both, entries by blanks. `0:5` is letter 0 of weight 5, `.` a hole
    or no cell; a row of dots alone is a read without cells. The longest row says how many columns there are, unless they are given. The block has
    version 2 if some weight is above 255, else version 1, unless the version is given. Version 2 has no reads without cells. A text that is no
    matrix of its version raises ValueError.

    >>> import velejume
    >>> velejume.block_of("0:5 . / 1:3 0:2").hex()
    '0100000012000200020004000000050006000001030002'
    >>> velejume.block_of("0:5 . / 1:3 0:2", version=2).hex()
    '0200000015000200020005000000000500080000010003000002'
    >>> velejume.block_of("1:256").hex()
    '020000000b0001000100050000010100'
    >>> velejume.block_of('''
    ...     0:5 .
    ...     1:3 0:2
    ... ''') == velejume.block_of("0:5 . / 1:3 0:2")
    True
    >>> velejume.block_of("0:65536")
    Traceback (most recent call last):
        ...
    ValueError: row 1, entry 1: '0:65536' is neither '.' nor a letter 0 or 1, ':' and a weight 0 to 65535
    """
    if not isinstance(text, str):
        raise TypeError(f"a matrix is text, not {type(text).__name__}")
    rows = _rows(text)
    if columns is None:
        if not rows:
            raise ValueError("no row says how many columns there are: give them as columns=")
        columns = max(map(len, rows))
    if not 1 <= columns <= _MOST:
        raise ValueError(f"{columns} columns: a block has 1 to {_MOST}")
    if len(rows) > _MOST:
        raise ValueError(f"{len(rows)} rows: a block has at most {_MOST} reads")
    version = _version(rows, version)
    weight_bytes = _WEIGHT_BYTES[version]
    reads = bytearray()
    for row, cells in enumerate(rows, 1):
        if len(cells) > columns:
            raise ValueError(f"row {row} has {len(cells)} entries, columns given: {columns}")
        entries = [column for column, cell in enumerate(cells) if cell != _HOLE]
        if version == 2 and not entries:
            raise ValueError(f"row {row} has no entry: version 2, which weights above {_HEAVIEST[1]} take, has no reads without cells")
        first, end = (entries[0], entries[-1] + 1) if entries else (0, 0)
        reads += (2 + (1 + weight_bytes) * (end - first)).to_bytes(2, "big") + first.to_bytes(2, "big")
        for letter, weight in cells[first:end]:
            reads += letter.to_bytes(1, "big") + weight.to_bytes(weight_bytes, "big")
    rest = columns.to_bytes(2, "big") + len(rows).to_bytes(2, "big") + reads
    return version.to_bytes(1, "big") + len(rest).to_bytes(4, "big") + rest


def matrix_of(block: Bytes) -> str:
    """The matrix of a fragment block of either version, a line for each read, each with all columns; nothing for a block without reads. Raises
    `Refused` with 1 to 8 or 38: a block that is refused by 9, for its active reads, has a matrix too.

    >>> import velejume
    >>> print(velejume.matrix_of(velejume.block_of("0:5 . / 1:3 0:2 / . 0:2")))
    0:5 . /
    1:3 0:2 /
    . 0:2
    """
    block = bytes_of("block", block)
    number, second = phase_in(block, work_room(0), output_room(0))
    if number not in (_ACTIVE_READS, _WORK_ROOM):
        raise Refused(number, second)
    columns, reads = int.from_bytes(block[5:7], "big"), int.from_bytes(block[7:9], "big")
    cell_bytes = 1 + _WEIGHT_BYTES[block[0]]
    rows, at = [], 9
    for _ in range(reads):
        end = at + 2 + int.from_bytes(block[at : at + 2], "big")
        words, first = ["."] * columns, int.from_bytes(block[at + 2 : at + 4], "big")
        for column, cell in enumerate(range(at + 4, end, cell_bytes), first):
            if block[cell] < 2:
                words[column] = f"{block[cell]}:{int.from_bytes(block[cell + 1 : cell + cell_bytes], 'big')}"
        rows.append(" ".join(words))
        at = end
    return " /\n".join(rows)
