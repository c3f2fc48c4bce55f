#!/usr/bin/env python3
"""A bot of discord.py, which loses its link twice on purpose and resumes: discord_py.py URL TOKEN INTENTS [DROP..]

It does what plain.py does and prints the same lines, but the connection, the session and the cache are those of discord.py
2.x. Three things are stood in for: its REST calls at login, where it connects, and fields that `gate` does not send. When
each guild of its cache has the name `end`, it closes. Status 0 if no dispatch was lost or came twice, or if discord.py is
not installed."""
import asyncio
import copy
import inspect
import json
import socket
import sys

try:
    import discord
    import discord.gateway
    import discord.http
    import yarl
except ImportError:
    print("discord_py.py: skipped, discord.py is not installed")
    sys.exit(0)

AWAY_SECONDS = 0.5
LONGEST_RUN_SECONDS = 60
NO_TIME = "1970-01-01T00:00:00.000000+00:00"

# There is no REST. Login asks who the bot is and what its application is; READY then says who it is. A library asks for the
# gateway's URL here if it has no default one.
USER = {"id": "0", "username": "unknown", "discriminator": "0", "avatar": None, "global_name": None, "bot": True}
APPLICATION = {"id": "0", "name": "unknown", "description": "", "icon": None, "rpc_origins": None, "bot_public": True,
               "bot_require_code_grant": False, "owner": USER, "verify_key": "", "flags": 0}

# What discord.py reads of an object without asking whether it is there, and `gate` does not send. `unavailable` is read to
# tell a guild that is back from one that is new.
FIELDS = {
    "user": {"avatar": None, "discriminator": "0", "global_name": None},
    "member": {"avatar": None, "deaf": False, "flags": 0, "mute": False, "premium_since": None},
    "role": {"color": 0, "colors": {"primary_color": 0}, "flags": 0, "hoist": False, "managed": False, "mentionable": False},
    "channel": {"bitrate": 64000, "user_limit": 0},
    "thread": {"message_count": 0, "total_message_sent": 0},
    "thread_metadata": {"archive_timestamp": NO_TIME, "auto_archive_duration": 1440},
    "presence": {"client_status": {}},
    "message": {"edited_timestamp": None, "mention_everyone": False, "mention_roles": [], "pinned": False, "tts": False},
    "attachment": {"filename": "unknown", "id": "0", "proxy_url": "", "size": 0, "url": ""},
    "component": {"components": [], "type": 1},
    "reaction": {"burst": False, "type": 0},
    "GUILD_CREATE": {"emojis": [], "features": [], "stickers": [], "unavailable": False},
}

# Which dispatches are such an object, and under which keys one stands, or a list of them.
DISPATCHES = {
    "CHANNEL_CREATE": "channel", "CHANNEL_UPDATE": "channel", "CHANNEL_DELETE": "channel",
    "THREAD_CREATE": "thread", "THREAD_UPDATE": "thread",
    "GUILD_MEMBER_ADD": "member", "GUILD_MEMBER_UPDATE": "member",
    "PRESENCE_UPDATE": "presence", "MESSAGE_CREATE": "message", "MESSAGE_UPDATE": "message",
    "MESSAGE_REACTION_ADD": "reaction", "MESSAGE_REACTION_REMOVE": "reaction",
}
KEYS = {
    "author": "user", "mentions": "user", "user": "user", "role": "role", "roles": "role", "channels": "channel",
    "threads": "thread", "thread_metadata": "thread_metadata", "members": "member", "presences": "presence",
    "attachments": "attachment", "components": "component",
}
# Under these keys stands something else in these objects: a presence has the id of its user alone, a member the ids of its
# roles, and the members of a list of threads are thread members.
OTHERWISE = {("presence", "user"), ("member", "roles"), ("THREAD_LIST_SYNC", "members")}


class Wrong(Exception):
    """The server did what it must not do."""


def fill(kind, value):
    """Adds what is missing in an object and in those inside it."""
    for key, missing in FIELDS.get(kind, {}).items():
        value.setdefault(key, copy.deepcopy(missing))
    for key, inner in value.items():
        inside = KEYS.get(key)
        if inside and (kind, key) not in OTHERWISE:
            for one in inner if isinstance(inner, list) else [inner]:
                fill(inside, one)


class Follower:
    """Prints dispatches, checks their numbers, and says when to drop the link."""

    def __init__(self, drops):
        self.drops, self.number = drops, 0
        self.dropped = self.replayed = 0
        self.behind = False
        self.done = asyncio.Event()

    def take(self, number, name):
        wanted = 1 if name == "READY" else self.number if name == "RESUMED" else self.number + 1
        if number != wanted:
            raise Wrong(f"{name} has the number {number} and not {wanted}")
        if name == "READY" and self.dropped:
            raise Wrong("a resume was refused")
        print(number, name, flush=True)
        self.number = number
        self.behind = self.behind and name != "RESUMED"
        self.replayed += self.behind

    def is_to_drop(self):
        if self.behind or not self.drops or self.number < self.drops[0]:
            return False
        self.drops.pop(0)
        print("dropped after", self.number, flush=True)
        self.dropped += 1
        self.behind = True
        return True


def stand_in(url, client, follower):
    """Puts what stands between discord.py and `gate` into the library."""
    gateway = discord.gateway.DiscordWebSocket
    received, from_client = gateway.received_message, gateway.from_client
    # Newer versions call the same thing otherwise.
    uncompressed = {word: False for word in ("zlib", "compress") if word in inspect.signature(from_client).parameters}
    answers = {"/users/@me": USER, "/oauth2/applications/@me": APPLICATION, "/applications/@me": APPLICATION,
               "/gateway": {"url": url}, "/gateway/bot": {"url": url, "shards": 1}}

    async def request(self, route, **_):
        if route.method != "GET" or route.path not in answers:
            raise Wrong(f"there is no REST, and {route.method} {route.path} is not stood in for")
        return copy.deepcopy(answers[route.path])

    async def connect(of, **words):
        if words.get("resume"):
            await asyncio.sleep(AWAY_SECONDS)
        return await from_client(of, **{**words, **uncompressed})

    async def receive(self, message, /):
        payload = json.loads(message)
        name = payload.get("t")
        if payload["op"] == 0:
            follower.take(payload["s"], name)
            fill(DISPATCHES.get(name, name), payload["d"])
        await received(self, json.dumps(payload))
        if payload["op"] != 0:
            return
        if follower.is_to_drop():
            # The end of the TCP connection, without a Close frame.
            self.socket.get_extra_info("socket").shutdown(socket.SHUT_RDWR)
        elif not follower.behind and client.guilds and all(guild.name == "end" for guild in client.guilds):
            follower.done.set()

    discord.http.HTTPClient.request = request
    gateway.DEFAULT_GATEWAY = yarl.URL(url)
    gateway.from_client = staticmethod(connect)
    gateway.received_message = receive


async def play(url, token, intents, drops):
    asked = discord.Intents.none()
    asked.value = int(intents)
    client, follower = discord.Client(intents=asked), Follower(drops)
    stand_in(url, client, follower)
    async with client:
        running = asyncio.create_task(client.start(token))
        ending = asyncio.create_task(follower.done.wait())
        await asyncio.wait({running, ending}, timeout=LONGEST_RUN_SECONDS, return_when=asyncio.FIRST_COMPLETED)
        if running.done():
            await running
        in_time = follower.done.is_set()
        await client.close()
        await running
    if not in_time:
        raise Wrong(f"the end did not come in {LONGEST_RUN_SECONDS} seconds")
    if follower.drops:
        raise Wrong(f"the end came before the drop after {follower.drops[0]}: connect before the edits are made")
    print(f"right: {follower.number} dispatches, {follower.dropped} drops, {follower.replayed} replayed", flush=True)


def main(url, token, intents, *drops):
    try:
        asyncio.run(play(url, token, intents, [int(number) for number in drops] or [6, 25]))
    except (Wrong, discord.DiscordException, OSError, KeyError) as fault:
        sys.exit(f"discord_py.py: {type(fault).__name__}: {fault}")


if __name__ == "__main__":
    if len(sys.argv) < 4:
        sys.exit(__doc__)
    main(*sys.argv[1:])
