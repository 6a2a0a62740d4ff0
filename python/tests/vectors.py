"""The outside vectors of tests/vectors, from solvers that share nothing with the project's."""

from pathlib import Path
from typing import NamedTuple

REPOSITORY = Path(__file__).resolve().parent.parent.parent
FOLDER = REPOSITORY / "tests" / "vectors"


class Phased(NamedTuple):
    name: str
    block: bytes
    #: what the program `phase` prints, which lends 16,384 work entries
    printed: str


class Solved(NamedTuple):
    #: general or het
    mode: str
    block: bytes
    #: what the rooms hold afterwards; they are lent as large, with all bytes a5
    work: list
    out: bytes
    number: int
    second: int
    #: what the run of `phase_margins` holds afterwards, lent alike
    margins: list


class Judged(NamedTuple):
    block: bytes
    answer: bytes
    #: work entries that are lent, each with all bytes a5, and what they hold afterwards
    lent: int
    number: int
    second: int
    work: list


class Converted(NamedTuple):
    block: bytes
    #: what the output holds afterwards; it is lent as large, with all bytes a5
    out: bytes
    number: int
    second: int


def phased():
    """After a head, four lines a case and a blank one: name, block, what was printed before letters could be `-`, what is printed. A block may
    be empty, and its line then is."""
    lines = (FOLDER / "phase.txt").read_text().splitlines()
    begin = lines.index("") + 1
    for at in range(begin, len(lines), 5):
        name, block, _, printed = lines[at : at + 4]
        yield Phased(name, bytes.fromhex(block), printed.replace(" | ", "\n"))


def _lines(name):
    """A line a call: inputs, an arrow, both numbers, the rooms. `.` is empty."""
    for line in (FOLDER / name).read_text().splitlines():
        if not line.startswith("#"):
            inputs, _, results = line.partition(" -> ")
            number, second, *rooms = results.split()
            yield dict(word.split("=") for word in inputs.split()), int(number), int(second), dict(room.split("=") for room in rooms)


def _bytes(text):
    return bytes.fromhex(text.strip("."))


def _entries(text):
    return [int(entry) for entry in text.split(",")] if text != "." else []


def solved():
    for given, number, second, rooms in _lines("solve.txt"):
        work, out, margins = _entries(rooms["work"]), _bytes(rooms["out"]), _entries(rooms["margins"])
        yield Solved(given["mode"], _bytes(given["block"]), work, out, number, second, margins)


def judged():
    for given, number, second, rooms in _lines("judge.txt"):
        yield Judged(_bytes(given["block"]), _bytes(given["answer"]), int(given["work"]), number, second, _entries(rooms["work"]))


def converted():
    for given, number, second, rooms in _lines("convert.txt"):
        yield Converted(_bytes(given["block"]), _bytes(rooms["out"]), number, second)
