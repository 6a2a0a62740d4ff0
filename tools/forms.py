#!/usr/bin/env python3
"""Counts, in crates/*/src, the places that the eight points of docs/DESIGN-PASS.md speak of.

    tools/forms.py [--list POINT] [DIR]     (default: the repository; --list prints each place of a point)

A row is a pattern; a match is a place to look at, not a fault. Comments are passed over.
"""
import argparse
import collections
import pathlib
import re

# (point, what it counts, pattern over a line)
LINES = [
    ("1", "enums of the repository's own", r"^\s*(pub )?enum "),
    ("1", "constants that number something", r"^\s*(pub )?const [A-Z_0-9]+: (u8|usize|bool) ="),
    ("1", "fields and parameters called number, kind, field, spread or amiss that are numbers", r"\b(number|kind|field|spread|amiss): (u8|u32|usize)\b"),
    ("3", "loops by `while` or `loop`", r"^\s*while |\bloop \{"),
    ("4", "calls of conversions and comparisons of the repository's own", r"(?<![.\w])(plain::(wide|weight|index|place|least|clear|clear_bytes)|wide|long|low|plus|less|lesser|least|sum|doubled)\("),
    ("4", "`as` between numbers", r" as (u8|u16|u32|u64|usize)\b"),
    ("6", "indices worked out into a flat run of records", r"\[(13 \* |3 \* r|i \* 1024)|13 \* [a-z] \+ 1"),
    ("7", "flags that say which step to run", r"\b(heterozygous|margins|short): bool\b"),
]


def sources(root):
    for path in sorted(root.glob("crates/*/src/**/*.rt")):
        yield path, re.sub(r"//[^\n]*", "", path.read_text(encoding="utf-8"))


def functions(text):
    """Name and parameters of each function."""
    for m in re.finditer(r"\bfn (\w+)(?:<[^(]*>)?\(([^)]*)\)", text):
        params = [p for p in m.group(2).replace("\n", " ").split(",") if p.strip()]
        yield m.group(1), params


def facts(text):
    """The parts of each `requires`, without parentheses."""
    for m in re.finditer(r"requires(?: \w+)? \{(.*?)\}\n", text, re.S):
        for part in m.group(1).split(" × "):
            yield re.sub(r"[()\s]+", " ", part).strip()


def main():
    args = argparse.ArgumentParser(description=__doc__, formatter_class=argparse.RawDescriptionHelpFormatter)
    args.add_argument("--list")
    args.add_argument("dir", nargs="?", default=".")
    given = args.parse_args()
    root = pathlib.Path(given.dir)
    texts = list(sources(root))
    for point, what, pattern in LINES:
        hits = [(p, n, line.strip()) for p, t in texts for n, line in enumerate(t.splitlines(), 1) for _ in re.finditer(pattern, line)]
        print(f"{point}  {len(hits):5}  {what}")
        if given.list == point:
            for p, n, line in hits:
                print(f"          {p.relative_to(root)}:{n}: {line}")
    many = [(p, name, len(ps)) for p, t in texts for name, ps in functions(t) if len(ps) >= 6]
    print(f"5  {len(many):5}  functions with six or more parameters, of {sum(1 for _, t in texts for _ in functions(t))}")
    if given.list == "5":
        for p, name, n in many:
            print(f"          {p.relative_to(root)}: {name}, {n}")
    count = collections.Counter(f for _, t in texts for f in facts(t))
    often = {f: n for f, n in count.items() if n >= 3}
    print(f"5  {len(often):5}  facts that stand in three or more `requires`, {sum(often.values())} times")
    if given.list == "5":
        for f, n in sorted(often.items(), key=lambda x: -x[1]):
            print(f"          {n:3}  {f}")
    antt = [p for p in root.glob("crates/*/proofs/**/*.antt")]
    print(f"8  {sum(len(p.read_text(encoding='utf-8').splitlines()) for p in antt):5}  lines of proofs, in {len(antt)} files")


main()
