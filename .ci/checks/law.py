#!/usr/bin/env python3
"""Each block of code in docs/LAW.md stands, line by line, in the file that the line above it names."""

import pathlib
import re
import sys

ROOT = pathlib.Path(__file__).resolve().parents[2]
PAGE = ROOT / "docs" / "LAW.md"


def quotes(text):
    """Yields the file that is named and the lines that are quoted, for each block, with the number of its first line."""
    lines = text.split("\n")
    number, named = 0, None
    while number < len(lines):
        line = lines[number]
        if line.startswith("```"):
            end = lines.index("```", number + 1)
            yield named, lines[number + 1 : end], number + 1
            number, named = end, None
        elif line.strip():
            found = re.fullmatch(r"`(\w+/specs/\w+\.antt)`.*", line)
            named = found[1] if found else None
        number += 1


def stands(quoted, lines):
    """Whether the quoted lines follow one another in the file; a line `..` stands for lines that are left out."""
    parts, part = [], []
    for line in quoted:
        if line.strip() == "..":
            parts.append(part)
            part = []
        else:
            part.append(line)
    parts.append(part)
    at = 0
    for part in parts:
        while at + len(part) <= len(lines) and lines[at : at + len(part)] != part:
            at += 1
        if at + len(part) > len(lines):
            return False
        at += len(part)
    return True


def main():
    wrong, count = [], 0
    for named, quoted, number in quotes(PAGE.read_text(encoding="utf-8")):
        count += 1
        if named is None:
            wrong.append(f"docs/LAW.md:{number}: no file is named above this block")
            continue
        path = ROOT / "crates" / named
        lines = path.read_text(encoding="utf-8").split("\n") if path.exists() else []
        if not stands(quoted, lines):
            wrong.append(f"docs/LAW.md:{number}: this does not stand so in {named}")
    for line in wrong:
        print(line)
    print(f"law: {count} quotes, {len(wrong)} wrong")
    return 1 if wrong or not count else 0


if __name__ == "__main__":
    sys.exit(main())
