"""Writes texts of dispatches, one a line: dispatches.py MEMBERS

A GUILD_CREATE with MEMBERS members and a tenth as many channels, and as many texts of each of some
small dispatches as the guild has channels.
"""
import json
import sys

TIME = "2015-04-26T06:26:56.936000+00:00"


def user(k):
    return {"bot": False, "id": str(10**17 + k), "username": f"user number {k}"}


def member(k):
    return {"communication_disabled_until": None, "joined_at": TIME, "nick": None if k % 2 else "nick",
            "roles": ["7", "8"], "user": user(k)}


def channel(k):
    overwrites = [{"allow": "1024", "deny": "0", "id": str(7 + j), "type": 0} for j in range(3)]
    return {"guild_id": "1", "id": str(10**18 + k), "name": "general-discussion", "parent_id": None,
            "permission_overwrites": overwrites, "position": k, "type": 0}


def guild(members):
    roles = [{"id": str(k), "name": f"role {k}", "permissions": "1024", "position": k} for k in range(50)]
    return {"channels": [channel(k) for k in range(members // 10)], "id": "1", "large": True,
            "member_count": members, "members": [member(k) for k in range(members)], "name": "den",
            "owner_id": "5", "presences": [], "roles": roles, "threads": [], "voice_states": []}


def message(k):
    return {"attachments": [], "author": user(k), "channel_id": "11", "components": [],
            "content": "a message of some length, as most of them are", "embeds": [], "guild_id": "1",
            "id": "175928847299117063", "mentions": [], "timestamp": "2016-04-30T11:18:25.796000+00:00",
            "type": 0}


def put(number, name, body):
    print(json.dumps({"d": body, "op": 0, "s": number, "t": name}, separators=(",", ":")))


def main(members):
    put(1, "GUILD_CREATE", guild(members))
    for k in range(members // 10):
        put(k, "CHANNEL_UPDATE", channel(k))
        put(k, "GUILD_MEMBER_UPDATE", {**member(k), "guild_id": "1"})
        put(k, "MESSAGE_CREATE", message(k))


main(int(sys.argv[1]))
