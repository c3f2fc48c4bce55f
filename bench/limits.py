#!/usr/bin/env python3
"""Step files that reach each limit, and one past it, with ample memory: limits.py [LARGE [SECONDS [NAMES]]]

Each file reaches a limit of docs/STEPS.md: members (5,000), roles, channels, overwrites, threads, messages, connections, sessions, entries of a look,
texts, chunks, frames, depths, lines and others. Some parts of its transcript are known and have to be there, no more and no fewer; the status
and, where the reference is at hand (bench/faults/rig.py), the whole transcript have to be the reference's. No run may end out of
memory. What a session keeps for a resume is in bench/lost_each.py.

LARGE is 0 or 1 (1): whether those that take long are played too. After SECONDS (3,600) it ends, and says what was left. With NAMES,
separated by commas, those alone are played."""
import collections
import json
import os
import sys
import time

sys.path.insert(0, os.path.join(os.path.dirname(os.path.abspath(__file__)), "faults"))
import rig

ALL = 36739
# The most members of a guild, with its owner, and of a chunk.
MEMBERS, CHUNK = rig.MEMBERS, 1000
BIG = 1 << 63  # ids with many digits
HEADS = ['{"step":"bot","token":"t1","user":"9","name":"bee","privileged":33026}', '{"step":"guild","id":"1"}']
LOOK = '{"step":"look","worker":0,"guild":"1"}'
FILES, LARGE = [], set()


def row(**fields):
    return json.dumps(fields, ensure_ascii=False)


def edit(do, **fields):
    return row(step="edit", guild="1", do=do, **fields)


def frame(conn, op, d=None, text=None):
    return row(step="frame", conn=conn, text=text if text is not None else json.dumps({"op": op, "d": d}))


def connect(conn, worker=0):
    return row(step="open", worker=worker, conn=conn)


def identify(conn, intents=ALL, **more):
    return [connect(conn), frame(conn, 2, dict({"token": "t1", "intents": intents, "properties": {}}, **more))]


def opened(perms="1024", owner_name="bee", name="den"):
    return HEADS + [edit("guild_open", name=name, owner="9", owner_name=owner_name, perms=perms, at=0)]


def member(user, name="m", at=0):
    return edit("member_add", user=str(user), name=name, bot=False, at=at)


def role(number, name="r", perms="0"):
    return edit("role_create", role=str(number), name=name, perms=perms, position=1)


def channel(number, kind=0, name="c", parent=None, sync=False):
    return edit("channel_create", channel=str(number), type=kind, name=name, parent=parent, position=0, sync=sync)


def overwrite(where, number, kind=0, allow="0", deny="1"):
    return edit("overwrite_set", channel=str(where), id=str(number), type=kind, allow=allow, deny=deny)


def thread(number, kind=11, name="t"):
    return edit("thread_create", thread=str(number), parent="7", type=kind, name=name, owner="9", at=0)


def archived(number):
    return edit("thread_archive", thread=str(number))


def looked(rows):
    """These rows with a look after every thousand of them, and at last: a look sees 4,096 entries."""
    return [it for at in range(0, len(rows), 1000) for it in (*rows[at:at + 1000], LOOK)]


def message(number, content="x", mentions=(), embeds=0, where="7"):
    return edit("message_create", message=str(number), channel=where, author="9", content=content, mentions=list(mentions), embeds=embeds, attachments=0, components=0)


def file(large=False):
    """Takes what a function makes: the lines of a file, and what has to be in its transcript, each with how often."""
    def add(make):
        name = make.__name__.replace("_", " ")
        FILES.append((name, make))
        if large:
            LARGE.add(name)
        return make
    return add


@file()
def members():
    rows = opened() + identify(1) + [LOOK] + looked([member(10000 + it, "u%d" % it) for it in range(MEMBERS - 2)]) + [member(50000), LOOK, member(50001), member(50000), LOOK]
    rows += identify(2) + [edit("member_remove", user="50000"), LOOK, member(50001), LOOK]
    return rows, {"GUILD_MEMBER_ADD": MEMBERS + 1, '"member_count":%d' % MEMBERS: 1, "18 TooMany %d" % MEMBERS: 1, "9 IdTaken": 1}


@file()
def chunks_of_members():
    """All members in as many chunks as they need; then the first 100 of them, also for a larger limit, of a name, and of ids."""
    users, chunks = [10000 + it for it in range(MEMBERS - 1)], -(-MEMBERS // CHUNK)
    rows = opened() + looked([member(it, "u%d" % it) for it in users]) + looked([edit("presence_set", user=str(it), status="idle") for it in users[::3]]) + identify(1)
    ask = {"guild_id": "1", "query": "", "limit": 0, "presences": True, "nonce": "n" * 32}
    rows += [frame(1, 8, ask), frame(1, 8, dict(ask, limit=100)), frame(1, 8, dict(ask, limit=101, nonce="n" * 33)), frame(1, 8, dict(ask, query="u"))]
    rows += [frame(1, 8, {"guild_id": "1", "user_ids": [str(users[-50] + it) for it in range(100)]}), connect(2), *identify(3)]
    rows += [frame(3, 8, {"guild_id": "1", "user_ids": ["5"] * 101}), LOOK]
    return rows, {"GUILD_MEMBERS_CHUNK": chunks + 4, '"not_found":[': 1, "close 3 4002": 1, '"nonce":"' + "n" * 32 + '"': chunks + 2,
                  '"chunk_count":%d,' % chunks: chunks, '"chunk_index":%d,' % (chunks - 1): 1}


@file()
def roles():
    rows = opened() + identify(1) + [LOOK] + [role(BIG + it) for it in range(248)] + [LOOK, role(BIG + 248), role(BIG + 249), LOOK]
    rows += [edit("member_role_add", user="9", role=str(BIG + it)) for it in range(249)] + [LOOK] + identify(2)
    rows += [edit("role_delete", role=str(BIG)), role(BIG + 249), LOOK]
    return rows, {"GUILD_ROLE_CREATE": 251, "18 TooMany 250": 1, "GUILD_MEMBER_UPDATE": 249, "GUILD_ROLE_DELETE": 2}


@file()
def channels():
    rows = opened() + identify(1) + [LOOK, channel(4, 4)] + [channel(100 + it, it % 2 * 2, parent="4") for it in range(499)] + [LOOK, channel(5), LOOK] + identify(2)
    rows += [edit("channel_delete", channel="4"), LOOK, channel(5), LOOK]
    return rows, {"CHANNEL_CREATE": 502, "18 TooMany 500": 1, "CHANNEL_UPDATE": 998, "CHANNEL_DELETE": 2}


@file()
def overwrites():
    rows = opened() + [channel(4, 4), channel(7)] + [member(100 + it) for it in range(101)] + [LOOK] + identify(1)
    rows += [overwrite(where, 100 + it, 1, deny=str(2**53 - 1)) for where in (4, 7) for it in range(100)] + [overwrite(7, 200, 1), overwrite(7, 1), overwrite(7, 100, 1, allow="1"), LOOK]
    rows += [channel(8, 0, parent="4", sync=True), LOOK, edit("overwrite_delete", channel="7", id="101", type=1), overwrite(7, 200, 1), LOOK] + identify(2)
    return rows, {"CHANNEL_UPDATE": 203, "18 TooMany 100": 2, "CHANNEL_CREATE": 1}


@file()
def active_threads():
    rows = opened() + [channel(7), member(5), LOOK] + identify(1) + [thread(100 + it, 11 + it % 2) for it in range(999)] + [LOOK, thread(1099, 12), thread(1100), LOOK]
    rows += [archived(100), thread(1100), edit("thread_unarchive", thread="100"), LOOK] + identify(2)
    # The owner sees all; as a member it sees none, and then those that are public again.
    rows += [edit("guild_owner", user="5"), edit("role_update", role="1", name="@everyone", perms="0", position=0), LOOK]
    rows += [edit("role_update", role="1", name="@everyone", perms="1024", position=0), LOOK, edit("channel_delete", channel="7"), LOOK]
    return rows, {"THREAD_CREATE": 1001, "18 TooMany 1000": 2, "THREAD_LIST_SYNC": 2}


@file()
def threads():
    rows = opened() + [channel(7), LOOK]
    for at in range(0, 4096, 512):
        rows += [it for number in range(at, at + 512) for it in (thread(100 + number), archived(100 + number))] + [LOOK]
    rows += identify(1) + [thread(90000), edit("thread_delete", thread="100"), thread(90000), thread(90001), LOOK]
    rows += [edit("thread_unarchive", thread=str(101 + it)) for it in range(1000)] + [LOOK] + identify(2)
    return rows, {"18 TooMany 4096": 2, "18 TooMany 1000": 1, '"t":"THREAD_DELETE"': 1, "THREAD_UPDATE": 999}


@file()
def members_of_a_thread():
    users = [10000 + it for it in range(MEMBERS - 1)]
    rows = opened() + [channel(7), thread(20)] + looked([member(it) for it in users]) + identify(1)
    rows += looked([edit("thread_join", thread="20", user=str(it), at=it) for it in users])
    rows += looked([edit("thread_leave", thread="20", user=str(it)) for it in users]) + [edit("member_remove", user="10000"), LOOK]
    # The owner is a member of it too. A count of more than 50 is told as 50; those who leave stand behind it.
    return rows, {"THREAD_MEMBERS_UPDATE": 2 * len(users), '"member_count":50}': len(users) - 48, '"member_count":50,"removed': len(users) - 49, "GUILD_MEMBER_REMOVE": 1}


@file()
def messages():
    rows = opened() + [channel(7), LOOK]
    for at in range(0, 16385, 4000):
        rows += [message(1000 + number) for number in range(at, min(at + 4000, 16385))] + [LOOK]
    rows += identify(1) + [edit("message_delete", message="1000"), edit("message_delete", message="1001"), message(1000), message(1002),
                           edit("reaction_add", message="1003", user="9", emoji="!"), LOOK, edit("channel_delete", channel="7"), edit("message_delete", message="1003"), LOOK]
    return rows, {"8 UnknownMessage": 2, "MESSAGE_DELETE": 1, "MESSAGE_CREATE": 1, "9 IdTaken": 1, "MESSAGE_REACTION_ADD": 1}


@file()
def connections():
    rows = opened() + [LOOK] + [connect(it) for it in range(1, 66)] + ['{"step":"lost","conn":1}', connect(66), connect(67), connect(68, 1)]
    rows += [row(step="tick", worker=0, now=82499), frame(2, 1), row(step="tick", worker=0, now=82500), connect(69)]
    return rows, {"close 65 4000": 1, "close 67 4000": 1, "heartbeat_interval": 67, "4000": 2 + 63, '"op":11': 1}


@file()
def sessions():
    rows = opened() + [LOOK] + [it for conn in range(1, 65) for it in identify(conn)] + [edit("guild_rename", name="a"), LOOK]
    rows += ['{"step":"lost","conn":1}', *identify(65), edit("guild_rename", name="b"), LOOK, '{"step":"closed","conn":2,"code":1000}', *identify(66), *identify(67)]
    rows += [row(step="tick", worker=0, now=82500), row(step="tick", worker=0, now=262499), connect(70), frame(70, 6, {"token": "t1", "session_id": "w0s64", "seq": 2}),
             row(step="tick", worker=0, now=262500), connect(71), frame(71, 6, {"token": "t1", "session_id": "w0s63", "seq": 2}), *identify(72)]
    return rows, {"close 65 4000": 1, "close 67 4000": 1, "GUILD_UPDATE": 64 + 63 + 2, "RESUMED": 1, '"op":9': 1, '"t":"READY"': 66}


def look_of(count, conns):
    rows = opened() + [LOOK] + [it for conn in range(1, conns + 1) for it in identify(conn)] + [edit("guild_rename", name="n%d" % it) for it in range(count)] + [LOOK]
    return rows + identify(conns + 1) + [edit("guild_rename", name="z"), LOOK]


@file()
def entries_of_a_look():
    return look_of(4096, 1), {"GUILD_UPDATE": 4096 + 2, "lagged": 0}


@file()
def entries_of_a_look_and_one():
    return look_of(4097, 1), {"GUILD_UPDATE": 1, "lagged 0 1 2 1": 1, "close 1 4000": 1}


@file(large=True)
def entries_of_a_look_for_64_sessions():
    return look_of(4096, 63), {"GUILD_UPDATE": 4096 * 63 + 64, "lagged": 0}


@file()
def entries_that_no_worker_looked_at():
    rows = opened() + [edit("guild_rename", name="n%d" % it) for it in range(10000)] + ['{"step":"look","worker":%d,"guild":"1"}' % worker for worker in range(4)]
    return rows + identify(1) + [LOOK], {"lagged": 4, "GUILD_CREATE": 1}


@file()
def guilds():
    heads = HEADS[:1] + ['{"step":"guild","id":"%d"}' % it for it in range(1, 33)] + ['{"step":"guild","id":"5"}']
    rows = heads + [row(step="edit", guild=str(it), do="guild_open", name="g", owner="9", owner_name="b", perms="0", at=0) for it in range(1, 33)]
    rows += ['{"step":"look","worker":0,"guild":"%d"}' % it for it in range(1, 33)] + identify(1) + [frame(1, 3, {"status": "idle"})]
    return rows + ['{"step":"look","worker":0,"guild":"%d"}' % it for it in range(1, 33)], {"GUILD_CREATE": 32, "wish": 32, "PRESENCE_UPDATE": 32}


@file()
def guilds_and_one():
    return HEADS + ['{"step":"guild","id":"%d"}' % it for it in range(1, 34)] + [LOOK], {"stop line 35 5 TooLong": 1}


def token(size):
    return [row(step="bot", token="é" * 50 + "x" * (size - 100), user="9", name="n" * 60000, privileged=33026)] + opened()[1:] + [LOOK, connect(1), frame(
        1, 2, {"token": "é" * 50 + "x" * (size - 100), "intents": 1, "properties": {}})]


@file()
def bytes_of_a_token():
    return token(100), {"READY": 1, "GUILD_CREATE": 1}


@file()
def bytes_of_a_token_and_one():
    return token(101), {"stop line 1 5 TooLong": 1}


@file()
def texts():
    """Names, nicks, emoji and contents of the largest size and one more, in letters of one, two and four bytes, and such as take six in JSON."""
    rows, many = opened(name="é" * 50, owner_name="\u0001" * 100) + identify(1) + [LOOK], 0
    for letter in ("x", "é", "😀", "\u0001", "\u2028"):
        size = len(letter.encode())
        for most, make in ((100, lambda text: [edit("guild_rename", name=text), channel(7 if text[:1] == "x" else 8, name=text), edit("role_create", role=str(700 + many), name=text, perms="0", position=0)]),
                           (32, lambda text: [edit("member_nick", user="9", nick=text)]), (2000, lambda text: [message(3000 + many, text)]),
                           (32, lambda text: [edit("reaction_add", message="3000", user="9", emoji=text)])):
            for over in (0, 1):
                rows += make(letter * (most // size) + "y" * (most % size + over))
                many += 1
        rows.append(LOOK)
    return rows + identify(2), {"GUILD_UPDATE": 5, "19 TooLong 100": 5 * 2, "19 TooLong 32": 5, "MESSAGE_CREATE": None, "TooLong 2000": 5}


@file()
def mentions_and_parts():
    rows = opened() + [channel(7)] + [member(100 + it, "u" * 100) for it in range(100)] + [LOOK] + identify(1)
    rows += [message(500, "\u0001" * 2000, [str(100 + it) for it in range(100)], 10), message(501, "é" * 1000, ["9"] * 100, 10), LOOK]
    return rows, {"MESSAGE_CREATE": 2}


@file()
def mentions_and_one():
    return opened() + [channel(7), message(500, "x", ["9"] * 101)], {"stop line 5 4 WrongType": 1}


@file()
def parts_and_one():
    return opened() + [channel(7), message(500, "x", (), 11)], {"stop line 5 4 WrongType": 1}


@file()
def times_and_positions():
    last, number = 253370764799999, 2**31 - 1
    rows = opened(perms=str(2**53 - 1)) + identify(1) + [LOOK, edit("member_add", user=str(2**64 - 1), name="m", bot=True, at=last), channel(2**64 - 1),
                                                        edit("member_timeout", user="9", until=last), message(2**64 - 1, where=str(2**64 - 1)),
                                                        edit("channel_update", channel=str(2**64 - 1), name="c", parent=None, position=number),
                                                        edit("typing", channel=str(2**64 - 1), user="9", at=last), LOOK, row(step="tick", worker=0, now=2**53 - 1)]
    return rows + identify(2), {"GUILD_MEMBER_ADD": 1, "9998-12-31T23:59:59.999000+00:00": None, "2147483647": 2, "close 1 4000": 1, "TYPING_START": 1}


@file()
def frames_of_a_minute():
    beat = frame(1, 1)
    rows = opened() + [connect(1)] + [beat] * 120 + [row(step="tick", worker=0, now=59999), connect(2), row(step="tick", worker=0, now=60000)] + [beat] * 120 + [beat, beat]
    rows += [it.replace('"conn": 1', '"conn": 2') for it in [beat] * 119] + [frame(2, 2, {"token": "t1", "intents": 1}), frame(2, 1)]
    return rows, {'"op":11': 240 + 119, "close 1 4008": 1, "close 2 4008": 1, "READY": 1}


@file()
def bytes_of_a_frame():
    rows = opened() + [LOOK] + [connect(it) for it in range(1, 9)]
    for conn, (text, more) in enumerate((('{"op":1}', " "), ('{"op":1,"x":"%s"}', "é"), ('{"op":1,"x":"%s"}', "\u0001"), ('{"op":2,"d":{"token":"t1","intents":1,"properties":"%s"}}', "p"))):
        for over in (0, 1):
            left = 4096 - len(text.replace("%s", "").encode())
            size = len(more.encode())
            body = json.dumps(more * 6)[1:-1] if more == "\u0001" else more * size
            fill = (body[:6] if more == "\u0001" else more) * (left // (6 if more == "\u0001" else size))
            fill += "y" * (left - len(fill.encode()) + over) if more != " " else " " * over
            rows.append(frame(2 * conn + 1 + over, 0, text=text % fill if "%s" in text else text + fill))
    return rows, {"4002": 4, '"op":11': 3, "READY": 1}


@file()
def bytes_of_a_line():
    def padded(text, size):
        return text[:-1] + ',"pad":"' + "é" * ((size - len(text) - 9) // 2) + "x" * ((size - len(text) - 9) % 2) + '"}'
    rows = opened() + identify(1) + [LOOK, " " * 65536, padded(edit("guild_rename", name="a"), 65535), padded(edit("guild_rename", name="b"), 65536), "\t" * 65536, LOOK]
    return rows + [padded(edit("guild_rename", name="c"), 65537), LOOK], {"GUILD_UPDATE": 2, "stop line 12 5 TooLong": 1}


@file()
def bytes_of_a_blank_line_and_one():
    return HEADS + [" " * 65536, "", " " * 65537], {"stop line 5 5 TooLong": 1}


@file()
def lines_of_a_file():
    return opened() + [LOOK, *identify(1)] + [""] * (1000000 - 8) + [edit("guild_rename", name="a"), LOOK][:1] + [LOOK], {"stop line 1000001 5 TooLong": 0, "READY": 1, "GUILD_UPDATE": 1}


@file()
def lines_of_a_file_and_one():
    return opened() + [LOOK, *identify(1)] + [""] * (1000000 - 6) + [LOOK], {"stop line 1000001 5 TooLong": 1, "READY": 1}


@file()
def thresholds():
    rows = opened() + [member(100 + it) for it in range(248)] + [LOOK]
    for conn, threshold in enumerate((249, 250, 251, 50, 2**64 - 1), 1):
        rows += identify(conn, 1, large_threshold=threshold)
    rows += [member(500), LOOK] + identify(7, 1, large_threshold=249) + identify(8, 1, large_threshold=250) + [member(501), LOOK] + identify(9, 1, large_threshold=250)
    return rows, {'"large":true': 1 + 1 + 1, '"large":false': 4 + 1}


@file()
def depths_of_a_frame():
    """Arrays and objects in one another, 126 and 127 deep beside the frame's own object."""
    rows, places = opened() + [LOOK], ((126, "[", "]"), (127, "[", "]"), (126, '{"a":', "}"), (127, '{"a":', "}"))
    for conn, (deep, begin, end) in enumerate(places, 1):
        inner = begin * (deep - 1) + begin.replace('"a":', "") + end * deep
        rows += [connect(conn), frame(conn, 0, text='{"op":1,"x":%s}' % inner)]
    return rows, {'"op":11': 2, "close 2 4002": 1, "close 4 4002": 1, "close": 2}


@file(large=True)
def largest_guild():
    """A guild at all limits at once, so that its GUILD_CREATE is of the largest size."""
    rows, wide, users = opened(name="\u0001" * 100, owner_name="\u0001" * 100), "\u0001" * 100, [BIG + it for it in range(MEMBERS - 1)]
    rows += [role(BIG + it, wide, str(2**53 - 1)) for it in range(249)] + [channel(7, 0, wide)] + [channel(BIG + it, 2, wide) for it in range(499)]
    rows += looked([edit("member_add", user=str(it), name=wide, bot=False, at=10**14 + it - BIG) for it in users])
    rows += looked([it for user in users for it in (edit("member_nick", user=str(user), nick="\u0001" * 32), edit("presence_set", user=str(user), status="dnd"),
                                                    edit("voice_set", user=str(user), channel=str(BIG), mute=True, deaf=True))])
    rows += looked([thread(BIG + 1000000 + it, 11, wide) for it in range(1000)])
    rows += looked([overwrite(where, BIG + it, 1, str(2**53 - 1), str(2**53 - 1)) for where in [7] + [BIG + at for at in range(499)] for it in range(100)])
    rows += looked([edit("member_role_add", user=str(it), role=str(BIG + at)) for it in users for at in range(0, 249, 4)])
    return rows + identify(1), {"GUILD_CREATE": 1, "refused": 0}


def main(large=1, seconds=3600, names=None):
    until, oracle = time.monotonic() + float(seconds), rig.oracle()
    tried, bad, left, counts = 0, 0, [], collections.Counter()
    with rig.Room() as room:
        player = rig.Player(room)
        for name, make in FILES:
            if name in LARGE and not int(large) or names and name not in names.split(","):
                continue
            if time.monotonic() > until:
                left.append(name)
                continue
            rows, known = make()
            data, begun = "".join(it + "\n" for it in rows).encode(), time.monotonic()
            ran = player.play(data, seconds=600)
            spent, faults, out = time.monotonic() - begun, [], ran.out.decode()
            for text, often in known.items():
                found = out.count(text)
                if found != often and (often is not None or not found):
                    faults.append(f"{text} is there {found} times, wanted {often}")
            wanted = 5 if out.rsplit("\n", 2)[-2:-1] and out.rsplit("\n", 2)[-2].startswith("stop line ") else 0
            if ran.status != wanted or ran.err != rig.complaint(wanted, player.shown, ran.out):
                faults.append(f"status {ran.status}, said {ran.err!r}")
            faults += rig.against_reference(oracle, data, ran)
            tried, bad = tried + 1, bad + bool(faults)
            longest = max(map(len, ran.out.split(b"\n")))
            counts["lines"] += len(rows)
            counts["bytes"] += len(ran.out)
            print(f"limits: {name}: {len(rows)} lines, {len(ran.out)} bytes printed, the longest line {longest}, {spent:.2f} s" + "".join("\n  " + fault for fault in faults), flush=True)
        player.end()
    rig.end(f"limits: {tried} files, {counts['lines']} lines, {counts['bytes']} bytes printed", tried, bad, left, oracle)


if __name__ == "__main__":
    rig.begin(main, __doc__, 3)
