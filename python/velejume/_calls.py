"""Phasing, judging and converting: the library's calls, with as much room as they ask for."""

from __future__ import annotations

import ctypes
from dataclasses import replace
from functools import partial
from typing import Callable, Union

from . import _answer, _verdict
from ._answer import Answer
from ._library import library
from ._refused import Refused
from ._verdict import Verdict

#: what a block or an answer block is given as
Bytes = Union[bytes, bytearray, memoryview]

_VERSION = 2
_WORK_ROOM = 10
_CONVERT_ROOM = 39
_LARGEST_ANSWER = 17 + 1024 + 2 * 1024
_MOST_MARGINS = 2 * 1024


def bytes_of(name: str, value: object) -> bytes:
    """A copy of what is lent, so that no other thread can change it during the call; bytes themselves are not copied."""
    if isinstance(value, bytes):
        return value
    if isinstance(value, str):
        raise TypeError(f"{name} is bytes, not str: block_of makes a block of a matrix, answer_of an answer")
    try:
        view = memoryview(value)  # type: ignore[arg-type]
    except TypeError:
        raise TypeError(f"{name} is bytes, not {type(value).__name__}") from None
    if view.itemsize != 1:
        raise TypeError(f"{name} is bytes, not items of {view.itemsize} bytes")
    return view.tobytes()


def work_room(entries: int) -> ctypes.Array[ctypes.c_uint32]:
    return (ctypes.c_uint32 * entries)()


def output_room(size: int) -> ctypes.Array[ctypes.c_uint8]:
    return (ctypes.c_uint8 * size)()


def phase_in(
    block: bytes, work: ctypes.Array[ctypes.c_uint32], out: ctypes.Array[ctypes.c_uint8], call: Callable[..., int] = library.velejume_phase
) -> tuple[int, int]:
    """Both numbers of a C call that phases, in these rooms."""
    second = ctypes.c_uint32()
    number = call(block, len(block), work, len(work), out, len(out), ctypes.byref(second))
    return number, second.value


def phase_margins_in(
    block: bytes, work: ctypes.Array[ctypes.c_uint32], out: ctypes.Array[ctypes.c_uint8], margins: ctypes.Array[ctypes.c_uint32]
) -> tuple[int, int]:
    """Both numbers of the C call, in these rooms."""
    second = ctypes.c_uint32()
    number = library.velejume_phase_margins(block, len(block), work, len(work), out, len(out), margins, len(margins), ctypes.byref(second))
    return number, second.value


def judge_in(block: bytes, answer: bytes, work: ctypes.Array[ctypes.c_uint32]) -> tuple[int, int]:
    """Both numbers of the C call, in this room."""
    second = ctypes.c_uint32()
    number = library.velejume_judge(block, len(block), answer, len(answer), work, len(work), ctypes.byref(second))
    return number, second.value


def convert_in(block: bytes, out: ctypes.Array[ctypes.c_uint8]) -> tuple[int, int]:
    """Both numbers of the C call, in this room."""
    second = ctypes.c_uint32()
    number = library.velejume_convert(block, len(block), out, len(out), ctypes.byref(second))
    return number, second.value


def phase(block: Bytes, table: bool = False) -> Answer:
    """Phases a fragment block; raises `Refused`, with both numbers, where it is refused.

    >>> import velejume
    >>> block = velejume.block_of("0:5 . / 1:3 0:2 / 1:6 1:1 / . 0:2")
    >>> velejume.phase(block).cost
    1
    >>> velejume.phase(block, table=True).table
    [[5, 3, 0, 5], [1, 3, 1, 4]]
    """
    return _phased(phase_in, block, table)


def phase_margins(block: Bytes, table: bool = False) -> Answer:
    """Phases a fragment block as `phase` does, and says how sure each letter is: the answer has `margins`, for each haplotype a number a column. A
    margin is the distance between the two sums that the letter is chosen from, so the other letter would cost so much more; it is 0 exactly at `-`.

    >>> import velejume
    >>> answer = velejume.phase_margins(velejume.block_of("0:4 . 1:3 / 0:5 0:5 0:5 / 1:5 1:5 1:5"))
    >>> answer.margins
    ((9, 5, 2), (5, 5, 5))
    >>> print(answer)
    cost 3
    flips 1
    sides 001
    hap1 000
    hap2 111
    margin1 9 5 2
    margin2 5 5 5
    """
    margins = work_room(_MOST_MARGINS)
    answer = _phased(partial(phase_margins_in, margins=margins), block, table)
    columns = len(answer.haplotypes[0])
    return replace(answer, margins=(tuple(margins[:columns]), tuple(margins[columns : 2 * columns])))


def phase_heterozygous(block: Bytes, table: bool = False) -> Answer:
    """Phases a fragment block for haplotypes that differ at every column; raises `Refused` as `phase` does. A column is written 0 and 1 or 1 and 0,
    whichever costs less, and `-` in both where they cost the same. The cost is never below that of `phase`. `judge` takes ours to be the answer
    of `phase`.

    >>> import velejume
    >>> block = velejume.block_of("0:9 0:9 0:5 / 1:9 1:9 0:5")
    >>> velejume.phase(block)
    Answer(cost=0, flips=0, sides=(0, 1), haplotypes=('000', '110'))
    >>> velejume.phase_heterozygous(block)
    Answer(cost=5, flips=1, sides=(0, 1), haplotypes=('00-', '11-'))
    """
    return _phased(partial(phase_in, call=library.velejume_phase_heterozygous), block, table)


def _phased(call: Callable[..., tuple[int, int]], block: Bytes, table: bool) -> Answer:
    """The answer of a call that phases, in rooms as large as it asks for."""
    block = bytes_of("block", block)
    out = output_room(_LARGEST_ANSWER)
    work = work_room(0)
    # without a work room a block is refused by 10, which says how many entries it takes, if not by a number before it
    number, second = call(block, work, out)
    if number == _WORK_ROOM:
        work = work_room(second)
        number, second = call(block, work, out)
    if number != 0:
        raise Refused(number, second)
    written = bytes(out)
    length = 5 + int.from_bytes(written[1:5], "big")
    return _answer.read(written[:length], list(work) if table else None)


def judge(block: Bytes, answer: Union[Bytes, Answer]) -> Verdict:
    """Judges an answer block, or an `Answer`, to a fragment block; raises `Refused` where the fragment block is refused.

    >>> import velejume
    >>> block = velejume.block_of("0:7")
    >>> velejume.judge(block, velejume.phase(block)).words
    'ours'
    >>> velejume.judge(block, velejume.answer_of(cost=7, sides="0", haplotypes=("1", "-"))).least_cost
    0
    """
    block = bytes_of("block", block)
    given = answer.block if isinstance(answer, Answer) else bytes_of("answer", answer)
    number, second = judge_in(block, given, work_room(0))
    if number == _WORK_ROOM:
        number, second = judge_in(block, given, work_room(second))
    verdict = _verdict.read(number, second)
    if verdict is None:
        raise Refused(number, second)
    return verdict


def convert(block: Bytes) -> bytes:
    """The block of version 2 that a fragment block of version 1 becomes without its reads without cells, which version 2 does not have. The others
    keep their order, letters and weights, and so their sides, the haplotypes and the cost; their numbers close up. Raises `Refused`, with 2 for
    any version but 1.

    >>> import velejume
    >>> narrow = velejume.block_of(". / 0:5 1:3 / 1:6 .")
    >>> wide = velejume.convert(narrow)
    >>> print(wide[0], velejume.matrix_of(wide), sep="\\n")
    2
    0:5 1:3 /
    1:6 .
    >>> velejume.phase(narrow).sides, velejume.phase(wide).sides
    ((0, 0, 1), (0, 1))
    >>> velejume.convert(wide)
    Traceback (most recent call last):
        ...
    velejume.Refused: refused 2 at 0: version not 1
    """
    block = bytes_of("block", block)
    out = output_room(0)
    # without room a block is refused by 39, which says how many bytes it takes, if not by a number before it
    number, second = convert_in(block, out)
    if number == _CONVERT_ROOM:
        out = output_room(second)
        number, second = convert_in(block, out)
    if number == _VERSION:
        raise Refused(number, second, "version not 1")
    if number != 0:
        raise Refused(number, second)
    return bytes(out)
