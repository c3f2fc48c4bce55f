"""Writes a step file: steps.py LINES WORKERS SESSIONS RENAMES

It has about LINES lines: renames, with a look of each of the WORKERS after every RENAMES of them, and
SESSIONS sessions on each worker, each of which follows every guild. The renames go round the guilds
of the file.
"""
import json
import sys

GUILDS = 16


def put(**step):
    print(json.dumps(step, separators=(",", ":")))


def begin(workers, sessions):
    put(step="bot", token="t1", user="9", name="bee", privileged=0)
    for guild in range(1, GUILDS + 1):
        put(step="guild", id=str(guild))
    for guild in range(1, GUILDS + 1):
        put(step="edit", guild=str(guild), do="guild_open", name="den", owner="5",
            owner_name="ann", perms="1024", at=0)
        put(step="edit", guild=str(guild), do="member_add", user="9", name="bee", bot=True, at=0)
    identify = json.dumps({"op": 2, "d": {"token": "t1", "intents": 1, "properties": {}}},
                          separators=(",", ":"))
    for worker in range(workers):
        for guild in range(1, GUILDS + 1):
            put(step="look", worker=worker, guild=str(guild))
        for session in range(sessions):
            conn = worker * sessions + session
            put(step="open", worker=worker, conn=conn)
            put(step="frame", conn=conn, text=identify)


def main(lines, workers, sessions, renames):
    begin(workers, sessions)
    for turn in range(lines // (renames + workers)):
        guild = str(turn % GUILDS + 1)
        for rename in range(renames):
            put(step="edit", guild=guild, do="guild_rename", name=f"den {turn} {rename}")
        for worker in range(workers):
            put(step="look", worker=worker, guild=guild)


main(*(int(word) for word in sys.argv[1:]))
