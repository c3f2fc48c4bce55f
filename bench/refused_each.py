#!/usr/bin/env python3
"""Refuses each allocation of `gate run` in turn, once alone and once with all after it: refused_each.py [EVERY [SECONDS [NAMES]]]

The files are those of examples/ and three of examples/worked. Each play has to end with the status and the transcript of a play with
ample memory, or with 6 and a front of that transcript; standard error has the line of its status, or may have nothing if no memory was
left for it. (bench/refused.sh does the same with a process for each play, and with `gate load`.)

One of EVERY (1) allocations is refused, the first among them. After SECONDS (3,600) it ends, and says what was left. With NAMES, separated
by commas, those files alone are played."""
import collections
import os
import sys
import time
from concurrent.futures import ThreadPoolExecutor

sys.path.insert(0, os.path.join(os.path.dirname(os.path.abspath(__file__)), "faults"))
import rig


# What the program says if memory is out before it knows its words.
EARLY = b"gate: out of memory (status 6; see docs/TRANSCRIPT.md)\n"


def judged(whole, ran, player, on):
    """What is wrong with a play in which an allocation was refused, and all after it if `on`."""
    if (ran.status, ran.out, ran.err) == (whole.status, whole.out, whole.err):
        return None
    if ran.status == 6 and whole.out.startswith(ran.out) and ran.err in (rig.complaint(6, player.shown), EARLY, *[b""] * on):
        return None
    return f"status {ran.status}, {len(ran.out)} of {len(whole.out)} bytes, said {ran.err!r}"


def refuse_each(room, place, data, every, until):
    """How often each status came, what was wrong, and how many allocations there are and were refused."""
    player, found, bad, last = rig.Player(room, f"{place}", refuses=True), collections.Counter(), [], 0
    whole = player.play(data)
    for number in range(1, whole.allocations + 1, every):
        if time.monotonic() > until:
            break
        for on in (False, True):
            ran = player.play(refused=number, on=on)
            found[ran.status] += 1
            fault = judged(whole, ran, player, on)
            bad += [f"allocation {number}{' and all after it' if on else ''}: {fault}"] if fault else []
        last = number
    player.end()
    return found, bad, whole.allocations, last + every > whole.allocations


def main(every=1, seconds=3600, names=None):
    until, every = time.monotonic() + float(seconds), int(every)
    files = [(name, data) for name, data in rig.examples() if not names or name in names.split(",")]
    total, bad, left, allocations = collections.Counter(), 0, [], 0
    with rig.Room() as room, ThreadPoolExecutor(os.cpu_count() or 1) as pool:
        runs = [pool.submit(refuse_each, room, place, data, every, until) for place, (_, data) in enumerate(files)]
        for (name, _), run in zip(files, runs):
            found, faults, count, ended = run.result()
            total, bad, allocations = total + found, bad + len(faults), allocations + count
            left += [] if ended else [name]
            print(f"refused each: {name}: {count} allocations, by status {dict(sorted(found.items()))}" + "".join("\n  " + fault for fault in faults[:5]), flush=True)
    tried = total[6]
    rig.end(f"refused each: {len(files)} files with {allocations} allocations, {sum(total.values())} plays with one or more refused, {tried} of them ended with 6",
            tried, bad, left, True)


if __name__ == "__main__":
    rig.begin(main, __doc__, 3)
