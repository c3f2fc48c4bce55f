#!/usr/bin/env python3
"""Mutated lines of step files and mutated frames of clients, against the reference: fuzz_lines.py [LINES [FRAMES [SECONDS [SEED]]]], or
fuzz_lines.py --count COUNT, of COUNT lines and COUNT frames

LINES (1,000) lines and FRAMES (10,000) frames are made of good ones, of the examples and of the reference's generator: fields left
out, doubled, renamed, swapped, or of another kind; numbers at each bound and in odd spellings; bytes that are changed, left out,
put in or cut off; what is no UTF-8 or is nested deep; texts of the largest size and one more. A line that the reference refuses is played as
the last of a file, after nothing, after a head or after a guild with a session. What it takes is played in files of many, with a look after
each. Frames go to a connection without a session and to one with, a new one wherever the last was closed. Status and
transcript have to be the reference's, and the line on standard error has to name the file, the line and the fault.

Of a difference the file is made small, and printed. What was tried depends on SEED (1) alone; SECONDS (3,600, and with a
COUNT 36,000) end it before, and then it says how much was tried. Several processes play at once."""
import collections
import glob
import json
import multiprocessing
import os
import random
import sys
import time

sys.path.insert(0, os.path.join(os.path.dirname(os.path.abspath(__file__)), "faults"))
import rig

LINES_OF_A_PIECE, FRAMES_OF_A_FILE, TAKEN_OF_A_FILE = 50, 300, 40
HEADS = ['{"step":"bot","token":"t1","user":"9","name":"bee","privileged":33026}', '{"step":"bot","token":"t2","user":"10","name":"wasp","privileged":0}',
         '{"step":"guild","id":"1"}', '{"step":"guild","id":"2"}']


def edit(guild, do, **fields):
    return json.dumps(dict({"step": "edit", "guild": str(guild), "do": do}, **fields))


def frame(conn, text):
    return json.dumps({"step": "frame", "conn": conn, "text": text if isinstance(text, str) else json.dumps(text)})


LOOKS = ['{"step":"look","worker":0,"guild":"1"}', '{"step":"look","worker":0,"guild":"2"}']
IDENTIFY = {"op": 2, "d": {"token": "t1", "intents": 36739, "properties": {}}}
# Two guilds, one with some of everything; the bot of t1 is in both.
GUILDS = [
    edit(1, "guild_open", name="den", owner="5", owner_name="ann", perms="1024", at=0),
    edit(1, "member_add", user="9", name="bee", bot=True, at=0), edit(1, "member_add", user="6", name="bob", bot=False, at=7),
    edit(1, "member_add", user="10", name="wasp", bot=True, at=0),
    edit(1, "role_create", role="11", name="mod", perms="0", position=1), edit(1, "member_role_add", user="9", role="11"),
    edit(1, "channel_create", channel="4", type=4, name="rooms", parent=None, position=1, sync=False),
    edit(1, "channel_create", channel="7", type=0, name="a", parent="4", position=0, sync=True),
    edit(1, "channel_create", channel="8", type=2, name="talk", parent=None, position=0, sync=False),
    edit(1, "overwrite_set", channel="7", id="11", type=0, allow="1024", deny="0"),
    edit(1, "thread_create", thread="20", parent="7", type=11, name="plan", owner="5", at=0),
    edit(1, "voice_set", user="6", channel="8", mute=False, deaf=True), edit(1, "presence_set", user="6", status="idle"),
    edit(1, "message_create", message="30", channel="7", author="6", content="hi", mentions=["9"], embeds=1, attachments=0, components=0),
    edit(2, "guild_open", name="nest", owner="9", owner_name="bee", perms="1024", at=0)] + LOOKS
SESSION = ['{"step":"open","worker":0,"conn":1}', frame(1, IDENTIFY)]
BEFORE = [[], HEADS, HEADS + GUILDS + SESSION]
GOOD_FRAMES = [
    {"op": 1}, {"op": 1, "d": 251}, IDENTIFY, {"op": 2, "d": {"token": "t2", "intents": 1, "properties": {}, "shard": [0, 1], "large_threshold": 50, "compress": False}},
    {"op": 3, "d": {"since": None, "activities": [], "status": "dnd", "afk": False}},
    {"op": 4, "d": {"guild_id": "1", "channel_id": "8", "self_mute": False, "self_deaf": True}}, {"op": 4, "d": {"guild_id": "1", "channel_id": None}},
    {"op": 6, "d": {"token": "t1", "session_id": "w0s1", "seq": 2}}, {"op": 8, "d": {"guild_id": "1", "query": "b", "limit": 10, "nonce": "a"}},
    {"op": 8, "d": {"guild_id": "1", "user_ids": ["5", "6", "77"], "presences": True}}, {"op": 8, "d": {"guild_id": "1", "query": "", "limit": 0}}]
NUMBERS = [0, 1, 2, 3, 4, 5, 10, 11, 50, 63, 64, 100, 101, 250, 255, 256, 65535, 65536, 2**31 - 1, 2**31, 2**32 - 1, 2**32, 2**53 - 1, 2**53, 2**63 - 1, 2**63,
           2**64 - 1, 2**64, -1, -2**63, -2**63 - 1, 253370764799999, 253370764800000, 82499, 82500, 53608447, 131072, 33026]
SPELLED = ["1.0", "1e0", "1E2", "-0", "0.5", "01", "+1", "1.", ".5", "1e", "1e400", "1e-400", "-1e400", "0e99999999999", "123456789012345678901234567890", "NaN",
           "Infinity", "0x1", "1_0", "True", "nul", "--1", "1e+2", "1e-2", "1.5e3", "18446744073709551615.0", "\"1\"", "[1]", "tru", "null", "true", "false"]
TEXTS = ["", "0", "1", "00001", "18446744073709551615", "18446744073709551616", "9007199254740991", "9007199254740992", "-1", "1 ", " 1", "+1", "1.0", "1a", "１", "٣",
         "a" * 32, "a" * 33, "é" * 50, "é" * 50 + "x", "x" * 100, "x" * 101, "x" * 2000, "x" * 2001, "\u2028", "\u0000", "\ufeff", "😀", "\u007f", "idle", "Idle", "offline",
         "t1", "t2", "Bot t1", "w0s1", "w0s2", "w1s1", "nope", "look", "edit", "bot", "guild", "guild_open", "message_create", "act", "guild_private"]
BYTES = [b"\x00", b"\x1f", b"\x7f", b"\x80", b"\xff", b"\xfe", b"\xc0\xaf", b"\xc3", b"\xc3\xa9", b"\xed\xa0\x80", b"\xf4\x90\x80\x80", b"\xf0\x9f\x98\x80", b"\xef\xbb\xbf",
         b"\xe2\x80\xa8", b"\xc2\x85", b'"', b"\\", b"{", b"}", b"[", b"]", b",", b":", b" ", b"\t", b"\r", b"\x0b", b"\x0c", b"\xc2\xa0", b"/", b"'", b"0", b"-", b"e", b".",
         b"\\u0000", b"\\ud800", b"\\udc00", b"\\ud83d\\ude00", b"\\u00g0", b"\\x", b"\\u12", b"null", b"//", b"#"]


def names(oracle):
    return sorted(oracle.EDITS) + ["bot", "guild", "edit", "look", "open", "frame", "lost", "closed", "tick"]


class Mutator:
    """Makes other texts of good JSON texts, from one source of chance."""

    def __init__(self, seed, oracle, good):
        self.chance, self.good = random.Random(seed), good
        self.words = names(oracle)

    def one_in(self, number):
        return self.chance.randrange(number) == 0

    def value(self, deep=0):
        kind = self.chance.randrange(9)
        if kind < 3:
            return self.chance.choice(NUMBERS)
        if kind < 5:
            return self.chance.choice(TEXTS)
        if kind == 5:
            return str(self.chance.choice(NUMBERS))
        if kind == 6:
            return self.chance.choice([None, True, False])
        if kind == 7:
            return [self.value(deep + 1) for _ in range(self.chance.choice([0, 1, 2, 3, 100, 101]))] if deep == 0 else []
        return {self.chance.choice(TEXTS): self.value(deep + 1)} if deep < 2 else {}

    def changed(self, it):
        """Another object: one or two changes, somewhere in it."""
        it = json.loads(json.dumps(it))
        for _ in range(self.chance.choice([1, 1, 1, 2])):
            at = it
            inner = [value for value in at.values() if isinstance(value, dict)]
            if inner and not self.one_in(4):
                at = inner[0]
            if not at:
                at["x"] = self.value()
                continue
            key, kind = self.chance.choice(sorted(at)), self.chance.randrange(9)
            if kind < 3:
                at[key] = self.value()
            elif kind == 3:
                del at[key]
            elif kind == 4:
                at[self.chance.choice([key.upper(), key + " ", key[:-1], "x", "", "é", key + "_id"])] = at.pop(key)
            elif kind == 5:
                other = self.chance.choice(sorted(at))
                at[key], at[other] = at[other], at[key]
            elif kind == 6:
                at[self.chance.choice(["do", "step", "op", "d", "guild", "conn", "worker", "text"])] = self.chance.choice(self.words + [1, 2, 3, 4, 6, 7, 8, 10])
            elif kind == 7:
                at[key] = [at[key]] if self.one_in(2) else {key: at[key]}
            else:
                at[key] = str(at[key]) if not isinstance(at[key], str) else at[key] + self.chance.choice(["0", " ", "x", "\u0000", "é"])
        return it

    def space(self):
        return self.chance.choice(["", "", "", "", "", " ", "\t", "\r", "  \t"])

    def string(self, text):
        """A string in one of its spellings; a half of a pair of surrogates stays away."""
        pieces = []
        for letter in text:
            units = letter.encode("utf-16-be")
            if self.one_in(12):
                pieces.append("".join(self.chance.choice(["\\u%04x", "\\u%04X"]) % int.from_bytes(units[at:at + 2], "big") for at in range(0, len(units), 2)))
            elif letter == "/" and self.one_in(2):
                pieces.append("\\/")
            else:
                pieces.append(json.dumps(letter, ensure_ascii=False)[1:-1])
        return '"' + "".join(pieces) + '"'

    def spelled(self, it):
        """The JSON of a value in one of its spellings, now and then in one that is none."""
        if isinstance(it, dict):
            rows = [(self.string(key), self.spelled(value)) for key, value in it.items()]
            if self.one_in(3):
                self.chance.shuffle(rows)
            if rows and self.one_in(8):
                rows.insert(self.chance.randrange(len(rows) + 1), (self.chance.choice(rows)[0], self.chance.choice(SPELLED)))
            return "{" + ",".join(self.space() + key + self.space() + ":" + self.space() + value + self.space() for key, value in rows) + "}"
        if isinstance(it, list):
            return "[" + ",".join(map(self.spelled, it)) + "]"
        if isinstance(it, str):
            return self.string(it)
        return self.chance.choice(SPELLED) if self.one_in(25) else json.dumps(it)

    def padded(self, text, most):
        """The text with spaces, or with a further key, so that it has the most bytes or one more."""
        size = most + self.chance.choice([0, 0, 1])
        left = size - len(text.encode())
        if left > 20 and text.startswith("{") and len(text) > 2 and self.one_in(2):
            return '{"pad":"' + "x" * (left - 9) + '",' + text[1:]
        return self.chance.choice([text + " " * left, " " * left + text])

    def nested(self, text):
        if not text.startswith("{") or len(text) < 3:
            return text
        deep = self.chance.choice([1, 5, 125, 126, 127, 128, 200])
        pair = self.chance.choice(["[]", "{}"])
        inner = "[" * deep + "]" * deep if pair == "[]" else '{"a":' * (deep - 1) + "{}" + "}" * (deep - 1)
        return '{"x":' + inner + "," + text[1:]

    def text(self, most):
        """A text made of a good one, as bytes; it may be no UTF-8."""
        it = self.chance.choice(self.good)
        if not self.one_in(4):
            it = self.changed(it)
        text = self.spelled(it) if self.one_in(2) else json.dumps(it, ensure_ascii=self.one_in(2))
        kind = self.chance.randrange(24)
        if kind == 0:
            text = self.nested(text)
        if kind == 1:
            text = self.padded(text, most)
        data = text.encode("utf-8", "surrogatepass")
        for _ in range(self.chance.choice([0, 0, 0, 0, 0, 0, 0, 1, 1, 2])):
            data = self.cut(data)
        return data

    def cut(self, data):
        """Other bytes somewhere."""
        place, kind = self.chance.randrange(len(data) + 1), self.chance.randrange(8)
        end = min(len(data), place + self.chance.choice([1, 1, 1, 2, 5]))
        if kind < 2:
            return data[:place] + self.chance.choice(BYTES) + data[place:]
        if kind < 4:
            return data[:place] + self.chance.choice(BYTES) + data[end:]
        if kind == 4:
            return data[:place] + data[end:]
        if kind == 5:
            return data[:place]
        if kind == 6:
            return data[:end] + data[place:]
        other = json.dumps(self.chance.choice(self.good)).encode()
        return data[:place] + other[self.chance.randrange(len(other)):]


def good_lines(oracle):
    """Lines of the examples and of the reference's generator."""
    lines = []
    for path in sorted(glob.glob(os.path.join(rig.ROOT, "examples/*.jsonl"))):
        with open(path, "rb") as file:
            lines += file.read().split(b"\n")
    import gen
    for seed in range(6):
        lines += gen.make("fuzz %d" % seed, rig.STAGE, 150).split(b"\n")
    good = []
    for line in sorted(set(lines)):
        try:
            it = json.loads(line)
        except ValueError:
            continue
        if isinstance(it, dict) and len(line) < 4000:
            good.append(it)
    # As many of each step and edit.
    kinds = collections.defaultdict(list)
    for it in good:
        kinds[it.get("step"), it.get("do") if it.get("step") == "edit" else None].append(it)
    most = 40
    return [kinds[kind][place % len(kinds[kind])] for kind in sorted(kinds, key=str) for place in range(most)]


def good_frames(lines):
    frames = list(GOOD_FRAMES) * 5
    for it in lines:
        try:
            text = json.loads(it["text"]) if it.get("step") == "frame" else None
        except (KeyError, TypeError, ValueError):
            continue
        if isinstance(text, dict):
            frames.append(text)
    return frames


class Fuzz:
    """What one process plays."""

    def __init__(self, folder):
        self.oracle = rig.needed_oracle()
        self.config = self.oracle.Config(rig.STAGE)
        self.player = rig.Player(rig.Room(folder), str(os.getpid()))
        self.lines = good_lines(self.oracle)
        self.frames = good_frames(self.lines)
        self.printed = []
        for before in BEFORE:
            status, transcript = self.reference("\n".join(before).encode() + b"\n" if before else b"")
            assert status == 0, transcript
            self.printed.append(transcript)

    def reference(self, data):
        return rig.by_reference(self.oracle, data)

    def compare(self, data, wanted):
        """Nothing, or how the play of this file differs."""
        ran = self.player.play(data)
        said = rig.complaint(wanted[0], self.player.shown, wanted[1])
        if (ran.status, ran.out, ran.err) == (*wanted, said):
            return None
        return f"status {ran.status}, wanted {wanted[0]}; said {ran.err!r}; " + rig.first_difference(wanted[1], ran.out)

    def shrunk(self, data):
        """A small file that still differs."""
        tried, until = 0, time.monotonic() + 60
        rows, joint = data.split(b"\n"), b"\n"
        for _ in range(2):
            size = max(1, len(rows) // 2)
            while size and tried < 400 and time.monotonic() < until:
                place = 0
                while place < len(rows) and tried < 400:
                    less = rows[:place] + rows[place + size:]
                    tried += 1
                    if self.compare(joint.join(less), self.reference(joint.join(less))):
                        rows = less
                    else:
                        place += size
                size //= 2
            data = joint.join(rows)
            rows, joint = [data[place:place + 1] for place in range(len(data))] if len(data) < 500 else [data], b""
        return data

    def difference(self, data, how):
        small = self.shrunk(data)
        return f"{how}\n  in {len(small)} bytes: {small[:3000]!r}" + ("" if small == data else f"\n  {self.compare(small, self.reference(small))}")

    def piece_of_lines(self, seed, count):
        """So many mutated lines: what came of them, and what differs."""
        mutator, counts, found = Mutator(seed, self.oracle, self.lines), collections.Counter(), []
        heads, steps = [], []
        for _ in range(count):
            line = mutator.text(65536).replace(b"\n", b" ")
            place = mutator.chance.randrange(len(BEFORE))
            reader = self.oracle.StepReader(self.config)
            for before in BEFORE[place]:
                reader.line(before.encode())
            try:
                step = reader.line(line)
            except self.oracle.Fault as fault:
                name = self.oracle.FAULTS[fault.number]
                counts["refused " + name] += 1
                stop = "stop line %d %d %s\n" % (len(BEFORE[place]) + 1, fault.number, name)
                data = "".join(before + "\n" for before in BEFORE[place]).encode() + line + b"\n" * mutator.chance.randrange(2)
                how = self.compare(data, (5, self.printed[place] + stop.encode()))
                found += [self.difference(data, how)] if how else []
                continue
            counts["blank" if step is None else "taken"] += 1
            (heads if step and step[0] in ("bot", "guild") else steps).append(line)
        for place in range(0, max(len(heads), len(steps)), TAKEN_OF_A_FILE):
            rows = heads[place:place + 25] + [line.encode() for line in BEFORE[2]]
            for line in steps[place:place + TAKEN_OF_A_FILE]:
                rows += [line] + [look.encode() for look in LOOKS]
            data = b"".join(row + b"\n" for row in rows)
            counts["files of taken ones"] += 1
            how = self.compare(data, self.reference(data))
            found += [self.difference(data, how)] if how else []
        return counts, found

    def piece_of_frames(self, seed, count):
        mutator, counts, oracle = Mutator(seed, self.oracle, self.frames), collections.Counter(), self.oracle
        world, reader, rows, printed = oracle.World(self.config), oracle.StepReader(self.config), [], []

        def play(row):
            rows.append(row)
            step = reader.line(row.encode())
            made = world.step(reader.lines, step)
            printed.extend(made)
            return made

        for row in HEADS + GUILDS:
            play(row)
        last, conns = 0, {}
        for number in range(count):
            slot = mutator.chance.randrange(2)
            conn = conns.get(slot)
            if conn not in world.conns or slot == 0 and world.conns[conn].session or mutator.one_in(60):
                if conn in world.conns:
                    play(json.dumps({"step": "closed", "conn": conn, "code": 1000}))
                last += 1
                conn = conns[slot] = last
                play(json.dumps({"step": "open", "worker": 0, "conn": conn}))
                if slot:
                    play(frame(conn, IDENTIFY))
            text = mutator.text(4096).decode("utf-8", "replace")
            if mutator.one_in(3):
                session = world.workers[0].sessions[-1].id if world.workers[0].sessions else "w0s1"
                text = text.replace("w0s1", session)
            try:
                op = "op %d" % oracle.frame_read(text)[0]
            except oracle.FrameFault as fault:
                op = fault.name
            counts[op] += 1
            try:
                made = play(frame(conn, text))
            except oracle.Fault:
                # The frame's text is too long for a line; no line like that is played.
                rows.pop()
                reader.lines -= 1
                counts["longer than a line"] += 1
                continue
            for line in made:
                if line.startswith("close "):
                    counts["close " + line.split(" ")[2]] += 1
                elif line.startswith("wish "):
                    counts["wishes"] += 1
            if mutator.one_in(6):
                for look in LOOKS:
                    play(look)
            if mutator.one_in(40) and conn in world.conns:
                play(json.dumps({"step": "lost", "conn": conn}))
            if mutator.one_in(80):
                play(json.dumps({"step": "tick", "worker": 0, "now": world.workers[0].now + mutator.chance.choice([0, 30000, 60000])}))
        data = "".join(row + "\n" for row in rows).encode()
        how = self.compare(data, (0, "".join(line + "\n" for line in printed).encode()))
        return counts, [self.difference(data, how)] if how else []


made = None


def begin(folder):
    global made
    try:
        made = Fuzz(folder)
    except Exception as fault:
        # A process that fails here would be begun again and again.
        made = fault


def piece(words):
    kind, seed, count, until = words
    if time.monotonic() > until:
        return kind, None, []
    if isinstance(made, Exception):
        return kind, None, [f"{type(made).__name__}: {made}"]
    counts, found = made.piece_of_lines(seed, count) if kind == "lines" else made.piece_of_frames(seed, count)
    return kind, counts, found


def pieces(kind, seed, count, size, until):
    for place in range(0, count, size):
        yield kind, f"{seed}/{kind}/{place}", min(size, count - place), until


def main(lines=1000, frames=10000, seconds=None, seed=1, count=None):
    rig.needed_program(), rig.needed_oracle()
    lines, frames = count or lines, count or frames
    until = time.monotonic() + float(seconds or (36000 if count else 3600))
    tasks = [*pieces("lines", seed, int(lines), LINES_OF_A_PIECE, until), *pieces("frames", seed, int(frames), FRAMES_OF_A_FILE, until)]
    counts, bad, left = {"lines": collections.Counter(), "frames": collections.Counter()}, 0, 0
    with rig.Room() as room, multiprocessing.Pool(os.cpu_count() or 1, begin, (room.folder,)) as pool:
        for kind, come, found in pool.imap_unordered(piece, tasks):
            left += come is None
            counts[kind] += come or {}
            for how in found:
                bad += 1
                print(f"fuzz: {how}", flush=True)
    for kind, come in counts.items():
        tried = sum(number for name, number in come.items() if name in ("taken", "blank") or name.startswith(("refused", "op ")) or name in ("TooLong", "NotJson", "BadShape", "UnknownOp"))
        print(f"fuzz: {tried} {kind} of seed {seed}: " + ", ".join(f"{number} {name}" for name, number in sorted(come.items(), key=lambda it: (-it[1], it[0]))))
    print(f"fuzz: {bad} differ" + (f"; {left} of {len(tasks)} pieces were left when the time was up" if left else ""))
    sys.exit(bad > 0 or left == len(tasks))


if __name__ == "__main__":
    rig.begin(main, __doc__, 4)
