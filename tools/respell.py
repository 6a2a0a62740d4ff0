#!/usr/bin/env python3
"""Respells the names of definitions and lemmas, old to new, as the lines of respell.txt beside this file give them.

usage: python3 tools/respell.py [FOLDER]     at the top of the repository, once, after Rattle's own port.py has turned it

Words are in snake case, facts and types in camel case; a dash stays where it joins two definitions, and a lemma that would have
its definition's name ends in _lem. In .antt and .rt files a name is respelled in code, and in comments where it is in camel case
or between backticks; in pages and in the vectors' script likewise.
"""

import os
import re
import sys

HERE = os.path.dirname(os.path.realpath(__file__))
NAME = re.compile(r"[^\W\d][\w'\-]*|_\w[\w'\-]*")
CAMEL = re.compile(r"[a-z0-9][A-Z]")


def table():
    with open(os.path.join(HERE, "respell.txt"), encoding="utf-8") as f:
        return dict(line.split() for line in f if line.strip())


def code(text, new):
    return NAME.sub(lambda m: new.get(m.group(0), m.group(0)), text)


def prose(text, new):
    """Names in camel case, and any name between backticks."""

    def one(m):
        name = m.group(0)
        return new[name] if name in new and CAMEL.search(name) else name

    parts = text.split("`")
    for i in range(1, len(parts), 2):
        parts[i] = code(parts[i], new)
    return NAME.sub(one, "`".join(parts))


def source(text, new, mark):
    lines = []
    for line in text.split("\n"):
        at = line.find(mark)
        if at < 0:
            lines.append(code(line, new))
        else:
            lines.append(code(line[:at], new) + prose(line[at:], new))
    return "\n".join(lines)


def files(root):
    for folder, dirs, names in os.walk(root):
        dirs[:] = sorted(d for d in dirs if d not in (".git", "out", "target", "tools", "rust", "python", "must-fail"))
        for name in sorted(names):
            if name.endswith((".antt", ".rt", ".md", ".awk")) and name not in ("PORT.md", "PORTING-LEFT.md"):
                yield os.path.join(folder, name)


def main():
    root = sys.argv[1] if len(sys.argv) > 1 else "."
    new = table()
    turned = 0
    for path in files(root):
        with open(path, encoding="utf-8") as f:
            old = f.read()
        if path.endswith(".antt"):
            text = source(old, new, "--")
        elif path.endswith(".rt"):
            text = source(old, new, "//")
        else:
            text = "\n".join(prose(line, new) for line in old.split("\n"))
        if text != old:
            turned += 1
            with open(path, "w", encoding="utf-8") as f:
                f.write(text)
    print(f"respell: {turned} files")


if __name__ == "__main__":
    main()
