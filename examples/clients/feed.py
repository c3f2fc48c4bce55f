#!/usr/bin/env python3
"""Writes a script of edits as a person goes along: feed.py FILE SECONDS | gate serve PORT WORKERS ACCEPTS -

The lines without a `note` go out at once. Then it waits for Enter, and writes one line after another, with a pause."""
import json
import sys
import time


def parts(path):
    """The lines of a script that come before bots connect, and those after."""
    with open(path, "rb") as file:
        lines = file.readlines()
    later = [line for line in lines if "note" in json.loads(line)]
    return [line for line in lines if line not in later], later


def main(path, seconds):
    opening, later = parts(path)
    sys.stdout.buffer.write(b"".join(opening))
    sys.stdout.buffer.flush()
    print("feed.py: press Enter once your bots are connected", file=sys.stderr)
    sys.stdin.readline()
    for line in later:
        sys.stdout.buffer.write(line)
        sys.stdout.buffer.flush()
        time.sleep(float(seconds))


if __name__ == "__main__":
    if len(sys.argv) != 3:
        sys.exit(__doc__)
    main(*sys.argv[1:])
