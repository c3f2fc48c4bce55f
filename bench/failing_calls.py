#!/usr/bin/env python3
"""Lets each call of the system fail while `gate run` plays a file: failing_calls.py [EVERY [SECONDS [NAMES]]]

The files are all examples, three of examples/worked, three that end at a line that is no step, and others, one with a transcript of more
than 65,536 bytes; each is played from a file and from standard input. First each is played with reads, with writes and with both of at most 1, 2, 3
and 7 bytes: the transcript and the status stay. Then each opening, read, write and closing fails in turn, once alone and once
with all after it, with several errors, with an end of the input or a write that takes nothing in its place, and with short reads
and writes beside it, where at most 400 calls of a file are drawn. After a read that fails the status has to be 3 and the transcript that of the whole lines read; after a write
that fails the status has to be 4 and the transcript exactly what was taken, a front of the right one; no read and no write
may come after either, and standard error has to have one line, with the file and the status. A closing, or a standard error,
that fails changes nothing.

One of EVERY (1) such failures is tried, drawn by a fixed seed. After SECONDS (3,600) it ends, and says how much was left. With NAMES,
separated by commas, the files with such a name alone are played.
Where the reference is at hand (bench/faults/rig.py) it has said what each line prints; else a play of one byte a read does."""
import collections
import os
import queue
import random
import sys
import threading
import time

sys.path.insert(0, os.path.join(os.path.dirname(os.path.abspath(__file__)), "faults"))
import rig

SHORT = [1, 2, 3, 7]
# The most bytes of a read and of a write, and how the call fails. The last two are for files that have some calls even so.
BESIDES = [(0, 0, reason) for reason in ("EIO", "EINTR", "EAGAIN", "ENOSPC", "nothing")] + [(61, 0, "EIO"), (0, 97, "EIO"), (127, 61, "EIO")]
LINES_AT_ONCE = 170
MOST_CALLS = 400


def long_file():
    """Messages of many sizes for three sessions, of which one is not sent the content."""
    made = random.Random("a long file")
    lines = ['{"step":"bot","token":"t1","user":"9","name":"bee","privileged":33026}', '{"step":"guild","id":"1"}',
             '{"step":"edit","guild":"1","do":"guild_open","name":"den","owner":"9","owner_name":"bee","perms":"1024","at":0}',
             '{"step":"edit","guild":"1","do":"channel_create","channel":"7","type":0,"name":"a","parent":null,"position":0,"sync":false}',
             '{"step":"look","worker":0,"guild":"1"}']
    for conn, intents in ((1, 513), (2, 33281), (3, 36739)):
        lines.append('{"step":"open","worker":0,"conn":%d}' % conn)
        lines.append('{"step":"frame","conn":%d,"text":"{\\"op\\":2,\\"d\\":{\\"token\\":\\"t1\\",\\"intents\\":%d,\\"properties\\":{}}}"}' % (conn, intents))
    for number in range(LINES_AT_ONCE):
        text = "é" * made.randrange(2) + "x" * made.randrange(made.choice((10, 100, 1900)))
        lines.append('{"step":"edit","guild":"1","do":"message_create","message":"%d","channel":"7","author":"9","content":"%s",'
                     '"mentions":[],"embeds":0,"attachments":0,"components":0}' % (1000 + number, text))
        if made.randrange(3) == 0:
            lines.append('{"step":"look","worker":0,"guild":"1"}')
    return "".join(line + "\n" for line in lines).encode()


def files():
    yield from rig.examples()
    with open(os.path.join(rig.ROOT, "examples/first.jsonl"), "rb") as file:
        first = file.read()
    yield "no step", first + b'{"step":"edit","guild":"1","do":"nope"}\n' + first
    yield "no line feed at its end", first[:-1]
    yield "a line too long", first + b" " * 65537 + b"\n" + first
    yield "no JSON", first + b"nope\n"
    yield "nothing", b""
    yield "long", long_file()


class Wanted:
    """What a file prints: all of it, and of each front of it the front that its whole lines print."""

    def __init__(self, name, data, whole, stepwise):
        self.name, self.data, self.status, self.out = name, data, whole.status, whole.out
        written, self.after = 0, []
        for call in stepwise.calls:
            if call.letter == "r" and (call.answer == 1 or not self.after or len(self.after) == len(data)):
                self.after.append(written)
            written += max(call.answer, 0) if call.letter == "w" else 0
        # A file that ends early is read no further than it is played.
        self.played = len(self.after) - (1 if self.status == 0 else 0)

    def out_of(self, given):
        """What the whole lines among so many bytes print."""
        return self.out[:self.after[given]] if given < len(self.after) else self.out


def line_by_line(oracle, data):
    """What the reference prints for each line, and at which byte the line ends."""
    world, reader, printed, at = oracle.World(oracle.Config(rig.STAGE)), oracle.StepReader(oracle.Config(rig.STAGE)), 0, 0
    yield 0, 0
    for line in data.split(b"\n")[:-1]:
        at += len(line) + 1
        try:
            step = reader.line(line)
        except oracle.Fault:
            return
        printed += sum(len(it.encode()) + 1 for it in world.step(reader.lines, step)) if step else 0
        yield at, printed


def compare_with_reference(oracle, wanted):
    status, transcript = rig.by_reference(oracle, wanted.data)
    if (status, transcript) != (wanted.status, wanted.out):
        yield f"{wanted.name}: the reference prints something else, with the status {status}"
    for at, printed in line_by_line(oracle, wanted.data):
        if at < len(wanted.after) and wanted.after[at] != printed:
            yield f"{wanted.name}: of {at} bytes {wanted.after[at]} are printed, the reference prints {printed}"
            return


def judged(wanted, ran, player, cut):
    """What is wrong with a play in which a call failed. `cut` plays a front of the file."""
    given = taken = 0
    failed, late, is_cut = None, [], False
    for call in ran.calls:
        if failed:
            late += [call.letter] if call.letter in "rw" and failed.letter in "orw" else []
        elif call.letter == "r" and call.answer == 0 and given < len(wanted.data):
            # The input has ended early. No read may follow, and a write may fail yet.
            late += ["r"] if is_cut else []
            is_cut = True
        elif call.answer < 0 or call.letter == "w" and call.answer == 0:
            failed = call
        elif call.letter == "r":
            given += call.answer
        if call.letter == "w" and call.answer > 0:
            taken += call.answer
    if failed is None and not is_cut:
        return "no call failed"
    status, out = cut(given) if is_cut else (wanted.status, wanted.out)
    if failed and failed.letter in "or":
        status, out = 3, wanted.out_of(given) if failed.letter == "r" else b""
    elif failed and failed.letter == "w":
        # What was taken is what came out, and it was due when it was taken.
        status, out = 4, (out if is_cut or given == len(wanted.data) else wanted.out_of(given))[:taken]
    said = rig.complaint(status, player.shown, out)
    if any(call.letter == "e" and call.answer <= 0 for call in ran.calls):
        said = b""
    found = [] if ran.status == status else [f"status {ran.status}, wanted {status}"]
    found += [] if ran.out == out and taken == len(ran.out) else [f"{len(ran.out)} bytes printed, {taken} taken, wanted {len(out)}"]
    found += [] if ran.err == said else [f"said {ran.err!r}, wanted {said!r}"]
    found += [f"after the failure came {''.join(late)}"] if late else []
    return "; ".join(found)


class Trial:
    """All that is tried, by several players at once."""

    def __init__(self, every, seconds):
        self.until, self.every = time.monotonic() + seconds, every
        self.seed, self.lock = random.Random("failing calls"), threading.Lock()
        self.counts, self.bad, self.left = collections.Counter(), [], 0

    def note(self, what, count, fault):
        with self.lock:
            self.counts[what] += count
            if fault:
                self.bad.append(fault)
                print("failing calls: " + fault, flush=True)

    def begin(self, player, name, data, oracle):
        """The right transcript of a file, and its plays with short reads and writes."""
        whole, stepwise = player.play(data), player.play(read_most=1)
        wanted = Wanted(name, data, whole, stepwise)
        said = rig.complaint(whole.status, player.shown, whole.out)
        fault = "" if whole.status in (0, 5) and whole.err == said else f"{name}: status {whole.status}, said {whole.err!r}"
        self.note("whole", 1, fault)
        for fault in compare_with_reference(oracle, wanted) if oracle else ():
            self.note("whole", 0, fault)
        for most in SHORT:
            for sizes in ((most, 0), (0, most), (most, most)):
                ran = player.play(read_most=sizes[0], write_most=sizes[1])
                right = (ran.status, ran.out, ran.err) == (whole.status, whole.out, whole.err)
                self.note("short", 1, "" if right else f"{name}, at most {sizes[0]} read and {sizes[1]} written: status {ran.status}, "
                          + rig.first_difference(whole.out, ran.out))
        return wanted

    def fail_each(self, player, wanted):
        fronts = {}

        def cut(given):
            if given not in fronts:
                ran = player.play(wanted.data[:given])
                fronts[given] = ran.status, ran.out
                player.play(wanted.data)
            return fronts[given]

        for read_most, write_most, reason in BESIDES:
            known = player.play(read_most=read_most, write_most=write_most)
            # An opening that is interrupted is tried again, and a closing without an error does not fail.
            numbers = [number for number, call in enumerate(known.calls, 1)
                       if reason not in ("nothing", "EINTR") or call.letter == "w" or call.letter == "r" and (call.answer > 0 or reason == "EINTR")]
            if len(numbers) > MOST_CALLS and (read_most or write_most):
                numbers = sorted(random.Random(wanted.name).sample(numbers, MOST_CALLS))
            for number in numbers:
                # A call that is interrupted may be tried again, so not all are.
                for on in (False, True) if reason != "EINTR" else (False,):
                    with self.lock:
                        chosen = self.seed.randrange(self.every) == 0
                    if not chosen:
                        continue
                    if time.monotonic() > self.until:
                        with self.lock:
                            self.left += 1
                        continue
                    ran = player.play(at=number, on=on, reason=reason, read_most=read_most, write_most=write_most)
                    letter = known.calls[number - 1].letter
                    fault = judged(wanted, ran, player, cut)
                    where = f"{wanted.name}{' by standard input' if player.standard else ''}, at most {read_most} read and {write_most} written"
                    self.note("orwce".index(letter), 1, fault and f"{where}, call {number} ({letter}) fails with {reason}"
                              f"{' and all after it' if on else ''}: {fault}")
        # An end with a status takes a line to standard error, which fails too.
        if wanted.status:
            count = len(player.play().calls)
            ran = player.play(at=count)
            right = (ran.status, ran.out, ran.err, ran.calls[-1].letter) == (wanted.status, wanted.out, b"", "e")
            self.note(4, 1, "" if right else f"{wanted.name}: standard error fails: status {ran.status}")

    def work(self, room, place, tasks, oracle):
        try:
            while True:
                name, data, standard = tasks.get_nowait()
                if time.monotonic() > self.until:
                    with self.lock:
                        self.left += 1
                    continue
                player = rig.Player(room, f"{place}", standard)
                self.fail_each(player, self.begin(player, name, data, oracle))
                player.end()
        except queue.Empty:
            return
        except Exception as fault:
            self.note("whole", 0, f"{type(fault).__name__}: {fault}")


def main(every=1, seconds=3600, names=None):
    trial, tasks, oracle = Trial(int(every), float(seconds)), queue.Queue(), rig.oracle()
    for name, data in sorted(files(), key=lambda it: -len(it[1])):
        for standard in (False, True) if not names or name in names.split(",") else ():
            tasks.put((name, data, standard))
    with rig.Room() as room:
        workers = [threading.Thread(target=trial.work, args=(room, place, tasks, oracle)) for place in range(os.cpu_count() or 1)]
        for worker in workers:
            worker.start()
        for worker in workers:
            worker.join()
    counts = trial.counts
    told = ", ".join(f"{counts[place]} {name}" for place, name in enumerate(("openings", "reads", "writes", "closings", "lines on standard error")))
    rig.end(f"failing calls: {counts['whole']} files whole, {counts['short']} plays with short reads and writes; failed: {told}",
            counts[1] + counts[2], len(trial.bad), [f"{trial.left} plays or files"] if trial.left else [], oracle)


if __name__ == "__main__":
    rig.begin(main, __doc__, 3)
