"""Writes a step file of permission changes: rights.py EDITS SESSIONS

A guild has 500 channels and 1,000 threads, half of them private. @everyone loses and regains
VIEW_CHANNEL in one channel after another, a look after each edit, and SESSIONS sessions follow.
"""
import json
import sys

CHANNELS = 500
THREADS = 1000


def put(**step):
    print(json.dumps(step, separators=(",", ":")))


def edit(do, **fields):
    put(step="edit", guild="1", do=do, **fields)


def begin(sessions):
    put(step="bot", token="t1", user="9", name="bee", privileged=0)
    put(step="guild", id="1")
    edit("guild_open", name="den", owner="5", owner_name="ann", perms="1024", at=0)
    edit("member_add", user="9", name="bee", bot=True, at=0)
    for channel in range(CHANNELS):
        edit("channel_create", channel=str(1000 + channel), type=0, name="a", parent=None,
             position=0, sync=False)
    for thread in range(THREADS):
        edit("thread_create", thread=str(5000 + thread), parent=str(1000 + thread % CHANNELS),
             type=11 + thread % 2, name="t", owner="5", at=0)
    put(step="look", worker=0, guild="1")
    identify = json.dumps({"op": 2, "d": {"token": "t1", "intents": 1, "properties": {}}},
                          separators=(",", ":"))
    for session in range(sessions):
        put(step="open", worker=0, conn=session)
        put(step="frame", conn=session, text=identify)


def main(edits, sessions):
    begin(sessions)
    for turn in range(edits):
        edit("overwrite_set", channel=str(1000 + turn // 2 % CHANNELS), id="1", type=0, allow="0",
             deny="1024" if turn % 2 == 0 else "0")
        put(step="look", worker=0, guild="1")


main(*(int(word) for word in sys.argv[1:]))
