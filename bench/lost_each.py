#!/usr/bin/env python3
"""A link that is lost at each dispatch, and a resume from each number: lost_each.py [EVERY [SECONDS]]

The edits are those of examples/every_edit.jsonl, every kind of them. Beside a bot whose link is lost stands a second session of it that
never loses its own. At each edit the link is lost before the edit, between the edit and its look, or after the look, or it is not
lost and another connection takes the session. Then the bot resumes from each number that the session has, and from one above, in an order
drawn by a fixed seed, each time on a new connection; it goes on from the last. Two more files let the buffer for resumes run over, by
its 1,024 dispatches and by its 4,194,304 bytes, and resume from both sides of the first number that is covered.

What the file has to print is worked out from the texts of the second session: after a resume from a number the dispatches after it, each once,
with their old numbers and texts, then RESUMED; op 9 below what is covered; 4007 above the last. So what a bot folds is what it would
have folded without a loss. Where the reference is at hand (bench/faults/rig.py), it has to print the same, and its verifier has to find that
what each session has folded is its projection after each entry.

Of the numbers between the first and the last one of EVERY (1) is drawn. After SECONDS (3,600) it ends, and says what was left."""
import json
import os
import random
import sys
import time

sys.path.insert(0, os.path.join(os.path.dirname(os.path.abspath(__file__)), "faults"))
import rig

HELD, HELD_BYTES = 1024, 4194304
HELLO = 'send %d {"d":{"heartbeat_interval":41250},"op":10,"s":null,"t":null}'
INVALID = 'send %d {"d":false,"op":9,"s":null,"t":null}'
RESUMED = 'send %d {"d":{},"op":0,"s":%d,"t":"RESUMED"}'
LOSSES = ["before the edit", "between the edit and its look", "after the look", "to another connection"]


def step(**fields):
    return json.dumps(fields)


def frame(conn, **fields):
    return step(step="frame", conn=conn, text=json.dumps(fields))


class File:
    """A file in the making, with what it has to print."""

    def __init__(self, made, texts, intents):
        self.chance, self.texts, self.intents = made, texts, intents
        self.rows, self.out, self.resumes = [], [], 0
        self.conn, self.last, self.number = 0, 0, 0  # the session's connection, if any; the last connection; the last number

    def connect(self):
        self.last += 1
        self.rows.append(step(step="open", worker=0, conn=self.last))
        self.out.append(HELLO % self.last)
        return self.last

    def identify(self):
        conn = self.connect()
        self.rows.append(frame(conn, op=2, d={"token": "t1", "intents": self.intents, "properties": {}}))
        return conn

    def lose(self):
        """The link ends in one of the ways that leave the session."""
        if self.conn:
            self.rows.append(self.chance.choice([step(step="lost", conn=self.conn), step(step="closed", conn=self.conn, code=self.chance.choice([1006, 4000, 1002]))]))
        self.conn = 0

    def look(self, rows, number, twin=0):
        """These lines give the session all dispatches up to a number, and its twin the same."""
        self.rows += rows
        for conn in (self.conn, twin):
            if conn:
                self.out += ["send %d %s" % (conn, self.texts[it]) for it in range(self.number + 1, number + 1)]
        self.number = number

    def first_covered(self):
        size, at = 0, self.number
        while at > 0 and self.number - at < HELD and size + len(self.texts[at].encode()) <= HELD_BYTES:
            size += len(self.texts[at].encode())
            at -= 1
        return at

    def resume(self, number, covered):
        conn = self.connect()
        self.rows.append(frame(conn, op=6, d={"token": "t1", "session_id": "w0s1", "seq": number}))
        self.resumes += 1
        if number > self.number:
            self.out.append("close %d 4007" % conn)
        elif number < covered:
            self.out.append(INVALID % conn)
            self.rows.append(step(step="lost", conn=conn))
        else:
            if self.conn:
                self.out.append("close %d 4000" % self.conn)
            self.out += ["send %d %s" % (conn, self.texts[it]) for it in range(number + 1, self.number + 1)]
            self.out.append(RESUMED % (conn, self.number))
            self.conn = conn

    def resume_from(self, numbers):
        """From each of these in some order, and at last from the last number."""
        covered = self.first_covered()
        for number in self.chance.sample(numbers, len(numbers)):
            if self.chance.randrange(2):
                self.lose()
            self.resume(number, covered)
        self.resume(self.number, covered)

    def data(self):
        return "".join(row + "\n" for row in self.rows).encode()

    def printed(self):
        return "".join(row + "\n" for row in self.out).encode()


def read(name):
    with open(os.path.join(rig.ROOT, "examples", name), encoding="utf-8", newline="\n") as file:
        return file.read().split("\n")[:-1]


def every_edit(every):
    """The loss at each edit, in each of the four ways, a file for each way."""
    rows, printed = read("every_edit.jsonl"), read("every_edit.out")
    heads, steps = rows[:3], rows[5:]
    texts, ends = [None], []
    for line in printed[1:]:
        text = line[len("send 1 "):]
        if json.loads(text)["op"] == 11:
            ends.append(len(texts) - 1)
        else:
            texts.append(text)
    kinds = {json.loads(row)["do"] for row in steps if '"do"' in row}
    for place, loss in enumerate(LOSSES):
        file = File(random.Random("lost " + loss), texts, 36739)
        file.rows += heads
        file.conn = file.identify()
        file.out.append("send 1 " + texts[1])
        file.number = 1
        twin = file.identify()
        file.out.append("send 2 " + texts[1].replace("w0s1", "w0s2"))
        for at, end in zip(range(0, len(steps), 3), ends):
            edit, look = steps[at:at + 2]
            if place == 0:
                file.lose()
                file.look([edit, look], end, twin)
            elif place == 1:
                file.rows.append(edit)
                file.lose()
                file.look([look], end, twin)
            else:
                file.look([edit, look], end, twin)
                if place == 2:
                    file.lose()
            inner = [number for number in range(1, end) if file.chance.randrange(every) == 0]
            file.resume_from([0, end + 1, end, 2**64 - 1, *inner])
        yield f"lost {loss}", file, kinds


def over(name, player, count, edits, head, looks):
    """More dispatches than are kept: the bot is away for most of the time, and resumes at some counts."""
    # Its texts are those of a session that is never lost.
    plain = [*head, *(row for edit in edits for row in (edit, looks)), ]
    opening = [step(step="open", worker=0, conn=1), frame(1, op=2, d={"token": "t1", "intents": 513, "properties": {}})]
    ran = player.play("".join(row + "\n" for row in [*head, *opening, *plain[len(head):]]).encode())
    lines = ran.out.decode().split("\n")[1:-1]
    texts = [None, *(line[len("send 1 "):] for line in lines)]
    file = File(random.Random(name), texts, 513)
    file.rows += head
    file.conn = file.identify()
    file.out += ["send 1 " + text for text in texts[1:3]]
    file.number = 2
    file.lose()
    for edit in edits:
        file.look([edit, looks], file.number + 1)
        if file.number in count:
            covered = file.first_covered()
            near = {covered + it for it in (-2, -1, 0, 1)} | {0, 1, file.number + 1, file.number - 1}
            file.resume_from(sorted(number for number in near if number >= 0))
            file.lose()
    return name, file, set()


def files(every, player):
    yield from every_edit(every)
    head = [*read("every_edit.jsonl")[:2], step(step="edit", guild="1", do="guild_open", name="den", owner="9", owner_name="bee", perms="1024", at=0),
            step(step="edit", guild="1", do="channel_create", channel="7", type=0, name="a", parent=None, position=0, sync=False)]
    look = step(step="look", worker=0, guild="1")
    head.append(look)
    renames = [step(step="edit", guild="1", do="guild_rename", name="n%d" % number) for number in range(1040)]
    yield over("more dispatches than are kept", player, {1023, 1024, 1025, 1026, 1040}, renames, head, look)
    # Each byte of the content takes six in the text.
    messages = [step(step="edit", guild="1", do="message_create", message=str(100 + number), channel="7", author="9", content="\u0001" * (2000 - number % 7),
                     mentions=[], embeds=0, attachments=0, components=0) for number in range(352)]
    # With some 12,170 bytes a text, 344 or 345 are kept.
    yield over("more bytes than are kept", player, {340, 346, 349, 352}, messages, head, look)


def main(every=1, seconds=3600):
    every, until, oracle = int(every), time.monotonic() + float(seconds), rig.oracle()
    tried, bad, resumes, verified, left, kinds = 0, 0, 0, 0, [], set()
    with rig.Room() as room:
        player = rig.Player(room)
        for name, file, of in files(every, player):
            if time.monotonic() > until:
                left.append(name)
                continue
            tried, resumes, data, printed = tried + 1, resumes + file.resumes, file.data(), file.printed()
            kinds |= of
            ran = player.play(data, seconds=300)
            faults = []
            if (ran.status, ran.out, ran.err) != (0, printed, b""):
                faults.append(f"status {ran.status}, said {ran.err!r}; {rig.first_difference(printed, ran.out)}")
            faults += rig.against_reference(oracle, data, ran)
            if oracle and len(ran.out) < 6000000 and time.monotonic() < until:
                verified += 1
                faults += oracle.verify_bytes(data, ran.out.decode(), rig.STAGE)[:3]
            print(f"lost each: {name}: {len(file.rows)} lines, {file.resumes} resumes, {len(file.out)} lines printed"
                  + "".join("\n  " + str(fault) for fault in faults), flush=True)
            bad += bool(faults)
        player.end()
    if oracle and not left:
        missing = set(oracle.EDITS) - kinds
        bad += bool(missing)
        if missing:
            print(f"lost each: no file has {', '.join(sorted(missing))}")
    rig.end(f"lost each: {tried} files with {len(kinds)} kinds of edits, {resumes} resumes, {verified} files verified", tried, bad, left, oracle)


if __name__ == "__main__":
    rig.begin(main, __doc__, 2)
