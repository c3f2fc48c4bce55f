#!/usr/bin/env python3
"""Lets each receive, send and closing of one link of `serve` fail in turn, and each accept: failing_links.py [SECONDS]

Two bots are at one worker, and a guild is renamed again and again. A call of the first bot's link fails: that link alone is lost. The bot
connects once more and resumes, or identifies where it had no session, and is sent each name, in order and under the next number; the
other bot is, on its one link; the server ends with 0 and has all edits. Calls are tried from the first on until one comes too
seldom to fail. Where an accept fails, the server ends with 7, having written where it listens and no more.

After SECONDS (600) it ends, and says what was left."""
import os
import subprocess
import sys
import time

sys.path[:0] = [os.path.join(os.path.dirname(os.path.abspath(__file__)), place) for place in ("faults", "../examples/clients")]
import rig
from gateway import Bot, Closed, Link, Wrong
from server import DOOR_FAILED, Server

OPENING = ['{"step":"bot","token":"t1","user":"9","name":"bee","privileged":0}', '{"step":"guild","id":"1"}',
           '{"step":"edit","guild":"1","do":"guild_open","name":"den","owner":"9","owner_name":"bee","perms":"1024","at":0}']
RENAME = '{"step":"edit","guild":"1","do":"guild_rename","name":"%s"}\n'
NAMES = ["a", "b", "c", "d", "end"]
KINDS = {"r": "receive", "w": "send", "c": "closing"}
ACCEPTS, SECONDS = 3, 20
ENDED = [f"guild 1 entries {len(NAMES) + 1} accepted {len(NAMES) + 1} members 1 roles 1 channels 0 active 0 archived 0", "strays 0"]


def served(room, gate, call, number, accepts):
    """A server of which one call fails."""
    told = room.path("told")
    if os.path.exists(told):
        os.unlink(told)
    given = {"LD_PRELOAD": room.path("links.so"), "LINK_CALL": call, "LINK_AT": str(number), "LINK_TOLD": told}
    os.environ.update(given)
    try:
        return Server([(line + "\n").encode() for line in OPENING], 1, accepts, gate)
    finally:
        for name in given:
            del os.environ[name]


class Follower:
    """A bot that goes on after its link was lost, and the names that it was told."""

    def __init__(self, url):
        self.bot, self.names, self.links = Bot(url, "t1", 1), [], 0
        self.again(self.greeted)

    def greeted(self):
        """Connects, and waits for the guild."""
        self.links += 1
        self.bot.connect()
        while not self.names:
            self.take()

    def take(self):
        dispatch = self.bot.next(SECONDS)
        if dispatch is None:
            raise TimeoutError("no dispatch came")
        if dispatch[1] in ("GUILD_CREATE", "GUILD_UPDATE"):
            self.names.append(dispatch[2]["name"])

    def again(self, part):
        """Does this, once more on a new link if the link is lost. A number that is missing, and silence, are no loss."""
        try:
            part()
        except (Closed, ConnectionError):
            if self.links == 2:
                raise
            self.greeted()
            if part != self.greeted:
                part()

    def follow(self, name):
        """Waits until it was told this name."""
        def part():
            while self.names[-1] != name:
                self.take()
        self.again(part)

    def wrong(self):
        """What is wrong with the names that it was told."""
        wanted = ["den", *NAMES]
        # Who has identified anew begins with the guild as it was then.
        return "" if self.names == wanted[wanted.index(self.names[0]):] else f"was told {self.names}"


def try_call(room, gate, call, number):
    """Whether the call has failed, and what was wrong then."""
    server = served(room, gate, call, number, ACCEPTS)
    try:
        one = Follower(server.urls[0])
        other = Follower(server.urls[0])
        for name in NAMES:
            server.write([(RENAME % name).encode()])
            other.follow(name)
            one.follow(name)
        for follower in (one, other):
            follower.bot.close()
        for _ in range(ACCEPTS - one.links - other.links):
            Link(server.urls[0]).drop()
        status, lines = server.end(SECONDS)
        found = [one.wrong(), other.wrong(), "" if other.links == 1 else "the other link was lost too",
                 "" if (status, lines) == (0, ENDED) else f"serve ended with {status} and {lines}"]
        return os.path.exists(room.path("told")), "; ".join(filter(None, found))
    except (Closed, Wrong, OSError, subprocess.TimeoutExpired) as fault:
        return True, f"{type(fault).__name__}: {fault}"
    finally:
        server.kill()


def try_accept(room, gate, number):
    """What was wrong where the accept with this number fails."""
    server = served(room, gate, "a", number, ACCEPTS)
    try:
        for _ in range(number):
            try:
                Link(server.urls[0], 1)
            except (Closed, OSError):
                pass
        found = server.end(SECONDS)
        return "" if found == (DOOR_FAILED, []) else f"serve ended with {found[0]} and {found[1]}"
    except (Wrong, OSError, subprocess.TimeoutExpired) as fault:
        return f"{type(fault).__name__}: {fault}"
    finally:
        server.kill()


def main(seconds=600):
    gate, until, tried, bad, left = rig.needed_program(), time.monotonic() + float(seconds), 0, 0, []

    def note(what, fault):
        nonlocal tried, bad
        tried, bad = tried + 1, bad + bool(fault)
        if fault:
            print(f"failing links: {what}: {fault}", flush=True)

    with rig.Room(sources=["bench/faults/links.c"]) as room:
        for number in range(1, ACCEPTS + 1):
            note(f"accept {number}", try_accept(room, gate, number))
        told = [f"{ACCEPTS} accepts"]
        for call, kind in KINDS.items():
            number, failed = 0, True
            while failed and time.monotonic() < until:
                failed, fault = try_call(room, gate, call, number + 1)
                number += failed
                note(f"{kind} {number + (not failed)}", fault)
            left += [f"{kind}s"] if failed else []
            told.append(f"{number} {kind}s")
    rig.end(f"failing links: {', '.join(told)} failed", tried, bad, left, True)


if __name__ == "__main__":
    rig.begin(main, __doc__, 1)
