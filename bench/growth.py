"""Tells how the time of one edit grows: growth.py PROGRAM [EDITS]

Prints a table. A guild has some members, channels and active threads (half of them private), and some
sessions follow it on one worker, which looks after each edit. Beside each row stands the processor
time of one message in a channel, of one change of overwrites and of one change of a member's roles: that
of EDITS of them with their looks, less that of the same file without them, divided.
"""
import json
import os
import resource
import subprocess
import sys
import tempfile

BASE = dict(members=100, channels=100, threads=100, sessions=8)
ROWS = (
    [("members", count) for count in (10, 100, 1000, 5000)]
    + [("channels", count) for count in (10, 100, 500)]
    + [("threads", count) for count in (10, 100, 1000)]
    + [("sessions", count) for count in (1, 8, 64)]
)


def line(**step):
    return json.dumps(step, separators=(",", ":")) + "\n"


def edit(do, **fields):
    return line(step="edit", guild="1", do=do, **fields)


LOOK = line(step="look", worker=0, guild="1")


def begin(members, channels, threads, sessions):
    yield line(step="bot", token="t1", user="9", name="bee", privileged=0)
    yield line(step="guild", id="1")
    yield edit("guild_open", name="den", owner="5", owner_name="ann", perms="1024", at=0)
    yield edit("member_add", user="9", name="bee", bot=True, at=0)
    yield edit("role_create", role="20", name="r", perms="0", position=1)
    for member in range(members - 2):
        yield edit("member_add", user=str(100 + member), name="m", bot=False, at=0)
    for channel in range(channels):
        yield edit("channel_create", channel=str(10000 + channel), type=0, name="a", parent=None,
                   position=0, sync=False)
    for thread in range(threads):
        yield edit("thread_create", thread=str(50000 + thread), parent=str(10000 + thread % channels),
                   type=11 + thread % 2, name="t", owner="5", at=0)
    yield LOOK
    identify = json.dumps({"op": 2, "d": {"token": "t1", "intents": 513, "properties": {}}},
                          separators=(",", ":"))
    for session in range(sessions):
        yield line(step="open", worker=0, conn=session)
        yield line(step="frame", conn=session, text=identify)


def messages(turn, channels):
    return edit("message_create", message=str(900000 + turn), channel=str(10000 + turn % channels),
                author="5", content="a message of usual length", mentions=[], embeds=0,
                attachments=0, components=0)


def overwrites(turn, channels):
    return edit("overwrite_set", channel=str(10000 + turn // 2 % channels), id="1", type=0,
                allow="0", deny="1024" if turn % 2 == 0 else "0")


def roles(turn, channels):
    return edit("member_role_add" if turn % 2 == 0 else "member_role_remove", user="5", role="20")


def seconds(program, path):
    before = resource.getrusage(resource.RUSAGE_CHILDREN)
    subprocess.run([program, "run", path], stdout=subprocess.DEVNULL, check=True)
    after = resource.getrusage(resource.RUSAGE_CHILDREN)
    return after.ru_utime + after.ru_stime - before.ru_utime - before.ru_stime


def best(program, path):
    return min(seconds(program, path) for _ in range(3))


def row(program, work, edits, sizes):
    path = os.path.join(work, "steps.jsonl")
    with open(path, "w") as file:
        file.writelines(begin(**sizes))
    alone = best(program, path)
    figures = []
    for make in (messages, overwrites, roles):
        with open(path, "w") as file:
            file.writelines(begin(**sizes))
            for turn in range(edits):
                file.write(make(turn, sizes["channels"]) + LOOK)
        figures.append((best(program, path) - alone) / edits * 1e6)
    return figures


def main(program, edits="4000"):
    print("| of | count | message, µs | overwrite, µs | role of a member, µs |")
    print("|---|---|---|---|---|")
    with tempfile.TemporaryDirectory() as work:
        for name, count in ROWS:
            figures = row(program, work, int(edits), {**BASE, name: count})
            print(f"| {name} | {count} | " + " | ".join(f"{x:.1f}" for x in figures) + " |")


main(*sys.argv[1:])
