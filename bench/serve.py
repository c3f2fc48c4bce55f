#!/usr/bin/env python3
"""Measures `serve` over loopback, and beside it another program with the same words: serve.py [PROGRAM [OTHER]]

PROGRAM is out/gate if none is named.
With 1, 64 and 4 x 64 sessions: dispatches and bytes a second, the processor time of the server, and the latency from an edit
that is written into its standard input to its text at the last of the clients; then the share of a processor that it takes
while 64 sessions say nothing. DISPATCHES (in thousands, 500) is how many are sent for each figure, IDLE (5) the seconds."""
import json
import os
import random
import selectors
import struct
import sys
import time

sys.path.insert(0, os.path.join(os.path.dirname(os.path.abspath(__file__)), "../examples/clients"))
from gateway import CLOSE, Bot, masked
from server import ROOT, Server

DISPATCHES = int(os.environ.get("DISPATCHES", "500")) * 1000
IDLE_SECONDS = float(os.environ.get("IDLE", "5"))
SIZES = [(1, 1), (1, 64), (4, 64)]
MOST_EDITS = 20000
EDITS_FOR_LATENCY = 100
# A worker that misses more than 4,096 entries ends its sessions; so no more than this many are under way.
MOST_UNDER_WAY = 2000
EDITS_AT_ONCE = 50
INTENTS = 513
GREETING = 2  # READY and GUILD_CREATE
NUMBER = b'"op":0,"s":'
buffer = bytearray(1 << 20)


def line(**fields):
    return json.dumps({"step": "edit", "guild": "1", **fields}, separators=(",", ":")).encode() + b"\n"


def opening():
    yield b'{"step":"bot","token":"t1","user":"9","name":"bee","privileged":33026}\n'
    yield b'{"step":"guild","id":"1"}\n'
    yield line(do="guild_open", name="den", owner="5", owner_name="ann", perms="1024", at=0)
    yield line(do="member_add", user="9", name="bee", bot=True, at=0)
    yield line(do="channel_create", channel="7", type=0, name="general", parent=None, position=0, sync=False)


def message(number):
    return line(do="message_create", message=str(1000 + number), channel="7", author="5", content=f"message {number} " + "x" * 80,
                mentions=[], embeds=0, attachments=0, components=0)


class Follower:
    """A client that does little: it counts bytes, and knows the number of the last dispatch that ends what has come."""

    def __init__(self, url):
        bot = Bot(url, "t1", INTENTS)
        bot.connect()
        while bot.number < GREETING:
            bot.next()
        self.socket, self.number, self.bytes, self.tail = bot.link.socket, GREETING, 0, b""
        self.socket.setblocking(False)

    def read(self):
        try:
            size = self.socket.recv_into(buffer)
        except BlockingIOError:
            return
        if not size:
            raise OSError("the server has ended a connection")
        self.bytes += size
        self.tail = (self.tail + buffer[max(0, size - 100):size])[-100:]
        place = self.tail.rfind(NUMBER)
        digits = self.tail[place + len(NUMBER):].split(b",", 1) if place >= 0 else ()
        if len(digits) == 2:
            self.number = int(digits[0])

    def leave(self):
        self.socket.setblocking(True)
        self.socket.sendall(masked(CLOSE, struct.pack("!H", 1000)))


class Crowd:
    """A server and the sessions at its workers."""

    def __init__(self, gate, workers, each):
        self.server = Server(opening(), workers, each, gate)
        self.followers = [Follower(url) for url in self.server.urls for _ in range(each)]
        self.selector = selectors.DefaultSelector()
        for follower in self.followers:
            self.selector.register(follower.socket, selectors.EVENT_READ, follower)
        self.edits = 0

    def cpu(self):
        """The processor time of the server: its clock is named by the number of its process."""
        return time.clock_gettime(-8 * self.server.process.pid - 6)

    def read(self, seconds=30):
        ready = self.selector.select(seconds)
        if not ready:
            raise OSError(f"nothing came for {seconds} seconds")
        for key, _ in ready:
            key.data.read()

    def arrived(self):
        """How many edits have come to all."""
        return min(follower.number for follower in self.followers) - GREETING

    def wait(self):
        while self.arrived() < self.edits:
            self.read()

    def write(self, lines):
        self.server.write(lines)
        self.edits += len(lines)

    def send(self, count):
        """Sends so many edits, as fast as they come to all."""
        lines, arrived = [message(self.edits + place) for place in range(count)], self.edits
        for place in range(0, count, EDITS_AT_ONCE):
            while self.edits - arrived > MOST_UNDER_WAY:
                self.read()
                arrived = self.arrived()
            self.write(lines[place:place + EDITS_AT_ONCE])
        self.wait()

    def end(self):
        for follower in self.followers:
            follower.leave()
        status, lines = self.server.end()
        wanted = f"guild 1 entries {self.edits + 3} accepted {self.edits + 3} "
        if status != 0 or not lines[0].startswith(wanted):
            raise OSError(f"serve ended with {status} and {lines}")


def measure_rate(crowd, edits):
    """Seconds by the clock, of the server's processors and of this client's; and the bytes that came."""
    crowd.send(min(edits, 200))
    before = time.monotonic(), crowd.cpu(), time.process_time(), sum(follower.bytes for follower in crowd.followers)
    crowd.send(edits)
    after = time.monotonic(), crowd.cpu(), time.process_time(), sum(follower.bytes for follower in crowd.followers)
    return [end - begin for begin, end in zip(before, after)]


def measure_latency(crowd):
    """The milliseconds from an edit to its text at the last client, each while nothing else goes on; ascending."""
    found = []
    for _ in range(EDITS_FOR_LATENCY):
        time.sleep(random.uniform(0.01, 0.03))
        text = [message(crowd.edits)]
        begun = time.monotonic()
        crowd.write(text)
        crowd.wait()
        found.append((time.monotonic() - begun) * 1000)
    return sorted(found)


def measure_idle(gate):
    crowd = Crowd(gate, 1, 64)
    time.sleep(1)
    begun, before = time.monotonic(), crowd.cpu()
    time.sleep(IDLE_SECONDS)
    share = (crowd.cpu() - before) / (time.monotonic() - begun)
    crowd.end()
    return share


def main(programs):
    for workers, each in SIZES:
        sessions = workers * each
        for gate in programs:
            crowd = Crowd(gate, workers, each)
            edits = max(100, min(MOST_EDITS, DISPATCHES // sessions))
            clock, server, client, size = measure_rate(crowd, edits)
            took = measure_latency(crowd)
            crowd.end()
            sent = edits * sessions
            head = f"{sessions} sessions: {gate}:"
            print(f"{head} {sent / clock:,.0f} dispatches/s, {size / clock / 1e6:.1f} MB/s in {clock:.2f} s")
            print(f"{head} the server took {server:.2f} s of processors, {server / sent * 1e6:.2f} us a dispatch; the client {client:.2f} s")
            print(f"{head} from an edit to its text: 50th {took[49]:.2f} ms, 99th {took[98]:.2f} ms of {EDITS_FOR_LATENCY}", flush=True)
    for gate in programs:
        print(f"64 silent sessions: {gate}: {measure_idle(gate) * 100:.2f} hundredths of a processor", flush=True)


if __name__ == "__main__":
    if sys.argv[1:2] == ["--help"]:
        sys.exit(__doc__)
    main(sys.argv[1:] or [os.path.join(ROOT, "out/gate")])
