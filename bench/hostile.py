#!/usr/bin/env python3
"""Hostile peers of `serve`, while one good client stays right to the end: hostile.py [PROGRAM [SECONDS [CONNECTIONS]]]

For SECONDS (600) kinds of hostile peers come one after another at a worker of PROGRAM (out/gate): peers without a handshake, or with half
of one, or with one byte by byte; half a frame, random bytes (by a seed, SEED or 1), huge messages, an end in the middle of a
message; CONNECTIONS (10,000) that come one after another; and 63 that never read, beside
whom a worker has no room but for the good one. All the time the guild is renamed, and a
bot at the same worker is sent each name, in order and under the next number. For each visit the peak of the server's memory is
said, and at the end the highest for each kind. At the end the rest of its connections come and go, so that it ends by itself; if it does not, it is killed."""
import json
import os
import random
import re
import socket
import struct
import sys
import threading
import time
import urllib.parse

sys.path.insert(0, os.path.join(os.path.dirname(os.path.abspath(__file__)), "../examples/clients"))
from gateway import CLOSE, TEXT, Bot, Closed, Link, Wrong, handshake, masked
from server import ROOT, Server

GOOD, NOISY = 1, 513  # GUILDS; with GUILD_MESSAGES
OPENING = [
    b'{"step":"bot","token":"t1","user":"9","name":"bee","privileged":33026}\n',
    b'{"step":"guild","id":"1"}\n',
    b'{"step":"edit","guild":"1","do":"guild_open","name":"den","owner":"9","owner_name":"bee","perms":"1024","at":0}\n',
    b'{"step":"edit","guild":"1","do":"channel_create","channel":"7","type":0,"name":"a","parent":null,"position":0,"sync":false}\n',
]
RENAME = '{"step":"edit","guild":"1","do":"guild_rename","name":"%s"}\n'
MESSAGE = ('{"step":"edit","guild":"1","do":"message_create","message":"%d","channel":"7","author":"9","content":"%s",'
           '"mentions":[],"embeds":0,"attachments":0,"components":0}\n')
RENAME_SECONDS = 0.05
# How much each peer that never reads is sent. A link that has not taken more than 64 MiB is given up.
UNREAD_BYTES = int(os.environ.get("UNREAD_MIB", "72")) << 20
MESSAGES_AT_ONCE = 500
# How long peers stay that send no whole handshake, or send it byte by byte; in a run of a minute or less, a second.
HANDSHAKE_SECONDS = 7
END_SECONDS = 120
random.seed(int(os.environ.get("SEED", "1")))


class Good(threading.Thread):
    """The client that stays. It takes the names in the order in which they were given out."""

    def __init__(self, url):
        super().__init__(daemon=True)
        self.bot, self.seen, self.fault = Bot(url, "t1", GOOD), 0, None
        self.slowest, self.sent_at = 0, {}
        self.bot.connect()
        while self.bot.number < 2:
            self.bot.next()

    def run(self):
        try:
            while True:
                dispatch = self.bot.next()
                if dispatch is None:
                    raise Wrong("no dispatch came in a minute")
                if dispatch[1] != "GUILD_UPDATE":
                    continue
                name, wanted = dispatch[2].get("name"), f"n{self.seen + 1}"
                if name not in (wanted, "end"):
                    raise Wrong(f"the guild has the name {name} and not {wanted}")
                if name == "end":
                    return
                self.seen += 1
                self.slowest = max(self.slowest, time.monotonic() - self.sent_at.pop(self.seen))
        except (Wrong, Closed, OSError, TypeError) as fault:
            self.fault = fault


class Host:
    """The server, with the one pipe through which its guild is changed."""

    def __init__(self, gate, accepts, patience):
        self.patience = patience
        self.server, self.left, self.lock = Server(OPENING, 1, accepts, gate), accepts, threading.Lock()
        self.url, self.pid = self.server.urls[0], self.server.process.pid
        parts = urllib.parse.urlsplit(self.url)
        self.address = parts.hostname, parts.port
        self.names = self.messages = 0
        self.peaks = {}  # for each kind of peers the highest, in KiB
        self.wishes = 0  # how many frames of peers may have asked for an edit
        self.running = True
        self.left -= 1
        self.good = Good(self.url)
        self.good.start()
        self.renaming = threading.Thread(target=self.rename, daemon=True)
        self.renaming.start()

    def rename(self):
        while self.running and not self.good.fault:
            self.give_name()
            time.sleep(RENAME_SECONDS)

    def give_name(self):
        with self.lock:
            self.names += 1
            self.good.sent_at[self.names] = time.monotonic()
            self.server.write([(RENAME % f"n{self.names}").encode()])
            return self.names

    def post(self, count):
        """Sends so many messages, and waits until the good client is past them."""
        with self.lock:
            lines = [(MESSAGE % (1000 + self.messages + place, "x" * 2000)).encode() for place in range(count)]
            self.messages += count
            self.server.write(lines)
        name, deadline = self.give_name(), time.monotonic() + 60
        while self.good.seen < name and not self.good.fault:
            if time.monotonic() > deadline:
                raise Wrong("the good client was held up for a minute")
            time.sleep(0.002)

    def connect(self):
        self.left -= 1
        return socket.create_connection(self.address, 10)

    def upgraded(self):
        """A socket after its handshake."""
        self.left -= 1
        return Link(self.url).socket

    def peak_kib(self, begin=False):
        """The peak of its memory since it was last begun anew."""
        if begin:
            with open(f"/proc/{self.pid}/clear_refs", "w") as file:
                file.write("5")
        with open(f"/proc/{self.pid}/status") as file:
            found = [int(row.split()[1]) for row in file if row.startswith("VmHWM:")]
        if not found:
            raise Wrong(f"the server ended with {self.server.process.poll()}")
        return found[0]


def no_handshake(host):
    peers = [host.connect() for _ in range(40)]
    time.sleep(host.patience)
    return peers


def half_a_handshake(host):
    peers = [host.connect() for _ in range(40)]
    for peer in peers:
        push(peer, handshake(host.url)[0][:random.randrange(1, 100)])
    time.sleep(host.patience)
    return peers


def handshake_byte_by_byte(host):
    peers = [host.connect() for _ in range(20)]
    request = handshake(host.url)[0]
    for byte in request:
        for peer in peers:
            push(peer, bytes([byte]))
        time.sleep(host.patience / len(request))
    return peers


def half_a_frame(host):
    peers = [host.upgraded() for _ in range(40)]
    for peer in peers:
        frame = masked(TEXT, b'{"op":1,"d":null}' * 100)
        push(peer, frame[:random.randrange(1, len(frame))])
    time.sleep(1)
    return peers


def end_in_a_message(host):
    peers = [host.upgraded() for _ in range(40)]
    for place, peer in enumerate(peers):
        frame = masked(TEXT, b"x" * 3000)
        push(peer, bytes([frame[0] & 0x7F]) + frame[1:] if place % 2 else frame[:1500])
        if place % 4 < 2:
            push(peer, masked(CLOSE, struct.pack("!H", 1000)))
    return peers


def random_bytes(host):
    peers = []
    for place in range(40):
        peers.append(host.connect() if place % 2 else host.upgraded())
        for _ in range(4):
            push(peers[-1], noise(random, random.randrange(1, 20000)))
    time.sleep(0.5)
    return peers


def huge_messages(host):
    peers = [host.upgraded() for _ in range(20)]
    for place, peer in enumerate(peers):
        # A head that promises up to 2^62 bytes, and some of them.
        push(peer, struct.pack("!BBQ", 0x81, 0xFF, 1 << (12 + place * 50 // 19)) + b"\0\0\0\0")
        for _ in range(8):
            push(peer, bytes(1 << 17))
    time.sleep(0.5)
    return peers


def never_read(host):
    """63 sessions whose peers never read, as many as a worker has beside the good one. They end their sessions at last."""
    peers = [host.upgraded() for _ in range(63)]
    for peer in peers:
        push(peer, masked(TEXT, json.dumps({"op": 2, "d": {"token": "t1", "intents": NOISY, "properties": {}}}).encode()))
    for _ in range(max(1, UNREAD_BYTES // (2200 * MESSAGES_AT_ONCE))):
        host.post(MESSAGES_AT_ONCE)
    for peer in peers:
        push(peer, masked(CLOSE, struct.pack("!H", 1000)))
    time.sleep(1)
    return peers


def one_after_another(host, count):
    for place in range(count):
        peer = host.connect()
        if place % 2:
            push(peer, handshake(host.url)[0])
        peer.close()
        if place % 100 == 99 and host.good.fault:
            return []
    return []


def push(peer, data):
    """Sends as much as is taken; a peer that the server has ended is no fault."""
    try:
        peer.settimeout(2)
        peer.sendall(data)
    except OSError:
        pass


def noise(chance, size):
    """Bytes of chance."""
    return bytes(chance.getrandbits(8) for _ in range(size))


def is_ended(peer):
    peer.setblocking(False)
    try:
        while peer.recv(65536):
            pass
    except BlockingIOError:
        return False
    except OSError:
        pass
    return True


KINDS = [no_handshake, half_a_handshake, handshake_byte_by_byte, half_a_frame, end_in_a_message, random_bytes, huge_messages]
# A session without a connection stays for 180 s, and a worker has 64 sessions; so those that never read come not more often.
NEVER_READ_SECONDS = 200


def play(host, kind, *words):
    name, before, names = kind.__name__.replace("_", " "), host.left, host.good.seen
    begun = time.monotonic()
    host.peak_kib(begin=True)
    host.good.slowest = 0
    peers = kind(host, *words)
    seconds, ended = time.monotonic() - begun, sum(map(is_ended, peers))
    for peer in peers:
        peer.close()
    peak = host.peak_kib()
    host.peaks[name] = max(peak, host.peaks.get(name, 0))
    print(f"{name}: {before - host.left} connections in {seconds:.1f} s, of the {len(peers)} that stayed the server ended {ended}; "
          f"peak memory {peak / 1024:.1f} MiB; the good client saw {host.good.seen - names} names, "
          f"the slowest after {host.good.slowest * 1000:.0f} ms", flush=True)
    if host.good.fault:
        raise Wrong(f"the good client: {host.good.fault}")


def end(host):
    """Lets the good client see the last name, connects the rest, and compares what the server writes."""
    host.running = False
    host.renaming.join()
    host.server.write([(RENAME % "end").encode()])
    host.good.join(60)
    right = not host.good.fault and not host.good.is_alive() and host.good.seen == host.names
    verdict = "right" if right else host.good.fault or "not the end"
    print(f"the good client saw {host.good.seen} of {host.names} names in order, then the end: {verdict}")
    host.good.bot.close()
    host.server.process.stdin.close()
    deadline, rest = time.monotonic() + END_SECONDS, 0
    while host.server.process.poll() is None and time.monotonic() < deadline:
        try:
            host.connect().close()
            rest += 1
        except OSError:
            time.sleep(0.01)
    if host.server.process.poll() is None:
        print(f"{rest} more connections came in {END_SECONDS} seconds, and the server had not ended: it was killed")
        host.server.kill()
        return False
    lines = host.server.process.stdout.read().decode()
    print(f"the server ended by itself with {host.server.process.returncode}, after {rest} more connections")
    if host.server.process.returncode != 0 or not is_end(host, lines):
        print(f"it wrote {lines!r}, and {host.names + host.messages + 3} edits were made")
        return False
    return right


def is_end(host, lines):
    """Whether a server has all edits that were made, and no more others than its peers may have asked for."""
    found = re.fullmatch(r"guild 1 entries (\d+) accepted (\d+) members 1 roles 1 channels 1 active 0 archived 0\nstrays (\d+)\n", lines)
    entries, accepted, strays = map(int, found.groups()) if found else (0, 0, 0)
    made = host.names + host.messages + 3
    return made <= accepted <= entries <= made + host.wishes and strays <= host.wishes


def visited(name, host, visits):
    """Lets the visits of peers come, then the end, after which the server is gone. Whether all was right."""
    try:
        visits()
        return end(host)
    except (Wrong, OSError) as fault:
        print(f"{name}: {fault}")
        return False
    finally:
        host.server.kill()
        print(f"{name}: peak memory by kind: " + ", ".join(f"{kind} {peak / 1024:.1f} MiB" for kind, peak in host.peaks.items()), flush=True)


def main(gate=os.path.join(ROOT, "out/gate"), seconds=600, connections=10000):
    seconds, connections = int(seconds), int(connections)
    host = Host(gate, connections + 2000 + 60 * seconds, HANDSHAKE_SECONDS if seconds > 60 else 1)

    def visits():
        until, next_unread, many, place = time.monotonic() + seconds, 0, False, 0
        while time.monotonic() < until or not many:
            if not many and place >= len(KINDS):
                many = True
                play(host, one_after_another, connections)
            if time.monotonic() >= next_unread:
                next_unread = time.monotonic() + NEVER_READ_SECONDS
                play(host, never_read)
            play(host, KINDS[place % len(KINDS)])
            place += 1

    sys.exit(not visited("hostile", host, visits))


if __name__ == "__main__":
    if sys.argv[1:2] == ["--help"]:
        sys.exit(__doc__)
    main(*sys.argv[1:4])
