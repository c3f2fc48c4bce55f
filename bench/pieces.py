#!/usr/bin/env python3
"""Pieces of every size through files, standard streams and sockets: pieces.py [EVERY [SECONDS]]

For each size from 0 to 70,000 bytes: a file of lines and texts of up to 65,536 and 70,000 bytes is played with reads, and with writes, of at
most that size, from a file and from standard input; with standard input a pipe that is fed in pieces of that size, each when the one before was
taken, and standard output a pipe of 4,096 bytes that is read in pieces of that size; `serve` sends a text of that size to a peer that reads
only when megabytes wait; a peer sends `serve` a frame of that size in pieces, whole or as two parts of a message; and a server sends `client`
a text of that size in pieces. The transcripts, the texts, the answers and the lines have to be the right ones. (A text has 74 bytes at least.
A message of more than 4,096 bytes, or one that is no frame, is closed with 4002; where the peer still sends, it may find its link lost.)

One of EVERY (1) sizes is tried, and those at the bounds of a buffer. After SECONDS (7,200) it ends, and says what was left. Only the first part
needs gcc."""
import base64
import fcntl
import hashlib
import json
import os
import queue
import random
import shutil
import socket
import subprocess
import sys
import termios
import threading
import time
from concurrent.futures import ThreadPoolExecutor

sys.path[:0] = [os.path.join(os.path.dirname(os.path.abspath(__file__)), place) for place in ("faults", "../examples/clients")]
import rig
from gateway import MAGIC, TEXT, Closed, Link, Wrong, masked
from server import Server

MOST = 70000
BOUNDS = {*range(20), 125, 126, 127, *range(4094, 4099), *range(65534, 65539), MOST - 1, MOST}
MOST_FRAME, FRAMES_OF_A_LINK = 4096, 100  # a link may send 120 frames a minute
BATCH_BYTES, SIZES_OF_A_CLIENT = 8 << 20, 4000  # a link that 64 MiB wait for is given up
SMALL_PIPE, LARGE_PIPE, SET_PIPE_SIZE = 4096, 1 << 20, 1031
SECONDS = 60
made = random.Random("pieces")
INTENTS = 33281  # GUILDS, GUILD_MESSAGES, MESSAGE_CONTENT
WIDE = "\u0001" * 100
HELD = ["guild 1 channels 1 threads 0 members 0"]
HEADS = ['{"step":"bot","token":"t1","user":"9","name":"bee","privileged":33026}', '{"step":"guild","id":"1"}']
HEARTBEAT_SECONDS = 20  # one that sends none for 82.5 seconds is closed, and one of more than 120 frames a minute
HEARTBEAT, ACK = '{"op":1,"d":null}', '{"d":null,"op":11,"s":null,"t":null}'
IDENTIFY = json.dumps({"op": 2, "d": {"token": "t1", "intents": INTENTS, "properties": {}}})


def edit(do, **fields):
    return json.dumps({"step": "edit", "guild": "1", "do": do, **fields})


OPENING = [*HEADS, edit("guild_open", name="den", owner="9", owner_name="bee", perms="1024", at=0),
           edit("channel_create", channel="7", type=0, name="a", parent=None, position=0, sync=False),
           *(edit("member_add", user=str(100 + it), name=WIDE, bot=False, at=0) for it in range(100))]


def lines(rows):
    return "".join(row + "\n" for row in rows).encode()


def compact(value):
    return json.dumps(value, ensure_ascii=False, sort_keys=True, separators=(",", ":"))


def filled(size, most):
    """A text that takes so many bytes in JSON and at most so many by itself: control characters take six."""
    wide = max(0, -(-(size - most) // 5))
    return "\u0001" * wide + "x" * (size - 6 * wide)


def update(number, name):
    return compact({"d": {"id": "1", "name": name, "owner_id": "9"}, "op": 0, "s": number, "t": "GUILD_UPDATE"})


def message(number, content, mentions):
    users = [{"bot": False, "id": str(100 + it), "username": WIDE} for it in range(mentions)]
    body = {"attachments": [], "author": {"bot": False, "id": "9", "username": "bee"}, "channel_id": "7", "components": [], "content": content, "embeds": [],
            "guild_id": "1", "id": str(1000 + number), "mentions": users, "timestamp": "2015-01-01T00:00:00.000000+00:00", "type": 0}
    return compact({"d": body, "op": 0, "s": number, "t": "MESSAGE_CREATE"})


def sized(number, size):
    """The dispatch with this number and a text of this size, and the edit that it is for; nothing if there is none so short."""
    left = size - len(update(number, ""))
    if left <= 600:
        name = filled(left, 100)
        return (update(number, name), edit("guild_rename", name=name)) if left > 0 else None
    each, bare = len(message(number, "", 2)) - len(message(number, "", 1)), len(message(number, "", 1))
    mentions = max(1, min(100, (size - bare) // each))
    content = filled(size - bare - (mentions - 1) * each, 2000)
    asked = edit("message_create", message=str(1000 + number), channel="7", author="9", content=content,
                 mentions=[str(100 + it) for it in range(mentions)], embeds=0, attachments=0, components=0)
    return message(number, content, mentions), asked


def step_file(sizes, pad):
    """A file with a transcript of texts of these sizes, and with lines of at least `pad` bytes for them."""
    look = '{"step":"look","worker":0,"guild":"1"}'
    rows = [*OPENING, look, '{"step":"open","worker":0,"conn":1}', json.dumps({"step": "frame", "conn": 1, "text": IDENTIFY})]
    for number, size in enumerate(sizes, 3):
        rows += [sized(number, size)[1].ljust(pad), look, " " * number]
    return lines(rows)


class Tally:
    """What was tried of each part, and what was wrong."""

    def __init__(self):
        self.tried, self.bad, self.left, self.told = 0, 0, [], []

    def compare(self, what, wanted, found):
        self.tried += 1
        if wanted != found:
            self.bad += 1
            if self.bad <= 20:
                print(f"pieces: {what}: wanted {str(wanted)[:300]}, found {str(found)[:300]}", flush=True)

    def run(self, name, part, sizes, gate, seconds):
        """Runs a part, which gives what it has tried size by size, or batch by batch."""
        begun, before, bad = time.monotonic(), self.tried, self.bad
        steps = part(self, gate, sizes)
        try:
            for _ in steps:
                if time.monotonic() > begun + seconds:
                    self.left.append(name)
                    break
        except (Closed, Wrong, OSError, subprocess.TimeoutExpired) as fault:
            self.compare(name, "no fault", f"{type(fault).__name__}: {fault}")
        finally:
            steps.close()
        print(f"pieces: {name}: {self.tried - before} compared, {self.bad - bad} otherwise, in {time.monotonic() - begun:.1f} s", flush=True)


def play_cut(player, whole, size):
    """What is compared of two plays with reads, and with writes, of at most this size."""
    for most in ({"read_most": size}, {"write_most": size}):
        ran = player.play(**most)
        right = (ran.status, ran.out, ran.err) == (0, whole.out, b"")
        yield f"{player.mark}, {most}", "the same", "the same" if right else f"status {ran.status}, " + rig.first_difference(whole.out, ran.out)


def calls(tally, gate, sizes):
    """Reads and writes of at most each size, of a file and of standard input, by several players at once."""
    data, count, free = step_file((MOST, 74, 65536), 65536), os.cpu_count() or 1, queue.Queue()
    with rig.Room() as room, ThreadPoolExecutor(count) as pool:
        players = [rig.Player(room, f"{name} {place}", name == "input", gate) for place in range(count) for name in ("file", "input")]
        wholes = [player.play(data) for player in players]
        tally.compare("whole plays", {(0, wholes[0].out, b"")}, {(whole.status, whole.out, whole.err) for whole in wholes})
        for place in range(count):
            free.put(players[2 * place:2 * place + 2])

        def play(size):
            pair = free.get()
            found = [it for player in pair for it in play_cut(player, wholes[0], size)]
            free.put(pair)
            return found

        for at in range(0, len(sizes), 64):
            for found in pool.map(play, sizes[at:at + 64]):
                for it in found:
                    tally.compare(*it)
            yield
        for player in players:
            player.end()


def fed(gate, data, size):
    """The status and the transcript of data that come in pieces of this size and go out in such pieces."""
    source, feed = os.pipe()
    drain, sink = os.pipe()
    fcntl.fcntl(feed, SET_PIPE_SIZE, LARGE_PIPE)
    fcntl.fcntl(sink, SET_PIPE_SIZE, SMALL_PIPE)
    come, waits = [], bytearray(4)

    def read():
        while True:
            piece = os.read(drain, size)
            if not piece:
                return
            come.append(piece)

    with subprocess.Popen([gate, "run", "-"], stdin=source, stdout=sink, stderr=subprocess.DEVNULL) as run, rig.within(SECONDS, run):
        os.close(sink)
        reader = threading.Thread(target=read, daemon=True)
        reader.start()
        try:
            for at in range(0, len(data), size):
                os.write(feed, data[at:at + size])
                # The next piece comes when this one was taken.
                while fcntl.ioctl(source, termios.FIONREAD, waits) == 0 and any(waits) and run.poll() is None:
                    pass
        finally:
            for end in (feed, source):
                os.close(end)
        reader.join(SECONDS)
    os.close(drain)
    return run.returncode, b"".join(come)


def pipes(tally, gate, sizes):
    """Standard streams that are pipes."""
    data = step_file((MOST, 74), 0)
    run = subprocess.run([gate, "run", "-"], input=data, stdout=subprocess.PIPE, stderr=subprocess.DEVNULL, timeout=SECONDS)
    for size in sizes:
        if size:
            status, out = fed(gate, data, size)
            right = (status, out) == (0, run.stdout)
            tally.compare(f"pipes of pieces of {size} bytes", "the same", "the same" if right else f"status {status}, " + rig.first_difference(run.stdout, out))
            yield


class Peer(Link):
    """A link that takes what comes in small pieces, and sends in pieces."""

    def __init__(self, url):
        super().__init__(url)
        self.socket.setsockopt(socket.SOL_SOCKET, socket.SO_RCVBUF, 1 << 17)

    def _read(self, deadline):
        self.socket.settimeout(max(0.001, deadline - time.monotonic()))
        piece = self.socket.recv(made.randrange(1, 9000))
        if not piece:
            raise Closed(1006)
        self.come += piece
        return True

    def text(self):
        return self.receive(time.monotonic() + SECONDS)

    def put(self, data):
        """Sends bytes in up to four pieces, between which the other end may read."""
        cuts = sorted(made.sample(range(len(data) + 1), min(3, len(data))))
        for begin, end in zip([0, *cuts], [*cuts, len(data)]):
            self.socket.sendall(data[begin:end])
            time.sleep(0.0002)


def texts(tally, gate, sizes):
    """Texts of each size to a peer that reads only when all of a batch has been sent to it."""
    server = Server([lines(OPENING)], 1, 1, gate)
    try:
        peer, number, batch, beat_at = Peer(server.urls[0]), 2, [], time.monotonic() + HEARTBEAT_SECONDS
        peer.text()
        peer.send(IDENTIFY)
        tally.compare("READY and GUILD_CREATE", [1, 2], [json.loads(peer.text())["s"] for _ in range(2)])
        for size in sizes:
            found = sized(number + 1, size)
            if found:
                number += 1
                batch.append(found)
            if batch and (sum(len(text) for text, _ in batch) > BATCH_BYTES or len(batch) == 1000 or size == sizes[-1]):
                server.write([lines(row for _, row in batch)])
                time.sleep(0.05)
                for wanted, _ in batch:
                    text = peer.text()
                    tally.compare(f"a text of {len(wanted)} bytes", "the same", "the same" if text == wanted else text)
                if time.monotonic() > beat_at:
                    beat_at = time.monotonic() + HEARTBEAT_SECONDS
                    peer.send(HEARTBEAT)
                    tally.compare("the answer to a heartbeat", ACK, peer.text())
                batch = []
                yield
        peer.end()
        tally.compare("the end of serve", 0, server.end()[0])
    finally:
        server.kill()


def frame_of(size):
    """A heartbeat of so many bytes, or what is none, as one frame or as two parts of a message."""
    body = b'{"op":1}'.ljust(size) if size >= 8 else b" " * size
    if size % 3:
        return masked(TEXT, body)
    cut = made.randrange(size + 1)
    parts = [bytearray(masked(kind, part)) for kind, part in ((TEXT, body[:cut]), (0, body[cut:]))]
    parts[0][0] &= 0x7F
    return bytes(parts[0] + parts[1])


def frames(tally, gate, sizes):
    """Frames of each size to a server."""
    short = [size for size in sizes if 8 <= size <= MOST_FRAME]
    other = [size for size in sizes if size not in range(8, MOST_FRAME + 1)]
    server = Server([lines(OPENING)], 1, -(-len(short) // FRAMES_OF_A_LINK) + len(other), gate)
    try:
        for place in range(0, len(short), FRAMES_OF_A_LINK):
            peer = Peer(server.urls[0])
            peer.text()
            for size in short[place:place + FRAMES_OF_A_LINK]:
                peer.put(frame_of(size))
                tally.compare(f"a frame of {size} bytes", ACK, peer.text())
            peer.end()
            yield
        for place in range(0, len(other), 16):
            peers = [(size, Peer(server.urls[0])) for size in other[place:place + 16]]
            for size, peer in peers:
                try:
                    peer.text()
                    peer.put(frame_of(size))
                    code = peer.text()
                except Closed as closed:
                    code = closed.code
                except OSError:
                    code = 1006
                tally.compare(f"a frame of {size} bytes", 4002 if code != 1006 or size <= MOST_FRAME else 1006, code)
                peer.drop()
            yield
        tally.compare("the end of serve", 0, server.end()[0])
    finally:
        server.kill()


def greeting(gate):
    """The texts READY and GUILD_CREATE, as they are printed."""
    run = subprocess.run([gate, "run", "-"], input=step_file((), 0), stdout=subprocess.PIPE, stderr=subprocess.DEVNULL, timeout=SECONDS)
    return [line[len("send 1 "):] for line in run.stdout.decode().split("\n")[:3]]


def sent(text):
    """A frame of a server."""
    size = len(text.encode())
    length = bytes([size]) if size < 126 else b"\x7e" + size.to_bytes(2, "big") if size < 65536 else b"\x7f" + size.to_bytes(8, "big")
    return b"\x81" + length + text.encode()


def serve_once(door, stream):
    """A gateway that takes one client and sends it these bytes in pieces of many sizes."""
    peer, _ = door.accept()
    with peer:
        peer.setsockopt(socket.IPPROTO_TCP, socket.TCP_NODELAY, 1)
        head = b""
        while b"\r\n\r\n" not in head:
            head += peer.recv(4096)
        key = next(line.split(b":")[1].strip() for line in head.split(b"\r\n") if line.lower().startswith(b"sec-websocket-key"))
        accepted = base64.b64encode(hashlib.sha1(key + MAGIC).digest())
        peer.sendall(b"HTTP/1.1 101 Switching Protocols\r\nUpgrade: websocket\r\nConnection: Upgrade\r\nSec-WebSocket-Accept: " + accepted + b"\r\n\r\n")
        at = 0
        while at < len(stream):
            size = made.choice((1, 2, 7, 100, 4096, 65536, made.randrange(1, MOST)))
            peer.sendall(stream[at:at + size])
            at += size
        while peer.recv(65536):
            pass


def client(tally, gate, sizes):
    """Texts of each size to `client`, which writes a line for each and at last what it holds."""
    hello, ready, create = greeting(gate)
    for place in range(0, len(sizes), SIZES_OF_A_CLIENT):
        found, number = [], 2
        for size in sizes[place:place + SIZES_OF_A_CLIENT]:
            one = sized(number + 1, size)
            if one:
                number += 1
                found.append(one[0])
        with socket.create_server(("127.0.0.1", 0)) as door:
            url = f"ws://127.0.0.1:{door.getsockname()[1]}"
            stream = b"".join(map(sent, [hello, ready.replace("ws://w0.gate.invalid", url), create, *found]))
            gateway = threading.Thread(target=serve_once, args=(door, stream), daemon=True)
            gateway.start()
            run = subprocess.run([gate, "client", url, "t1", str(INTENTS), str(number)], stdout=subprocess.PIPE, stderr=subprocess.DEVNULL, timeout=SECONDS)
            names = ["READY", "GUILD_CREATE", *(json.loads(text)["t"] for text in found)]
            wanted = [f"{at} {name}" for at, name in enumerate(names, 1)]
            shown = run.stdout.decode().splitlines()
            for at, line in enumerate(wanted):
                tally.compare(f"line {at + 1} of client", line, shown[at] if at < len(shown) else None)
            tally.compare("the end of client", (0, HELD), (run.returncode, shown[len(wanted):]))
        yield


PARTS = [("reads and writes", calls), ("pipes", pipes), ("texts to a peer", texts), ("frames of a peer", frames), ("texts to a client", client)]


def main(every=1, seconds=7200):
    gate, until, tally = rig.needed_program(), time.monotonic() + float(seconds), Tally()
    sizes = sorted({*range(0, MOST + 1, int(every)), *BOUNDS})
    parts = PARTS if shutil.which("gcc") else PARTS[1:]
    for place, (name, part) in enumerate(parts):
        tally.run(name, part, sizes, gate, max(0, until - time.monotonic()) / (len(parts) - place))
    rig.end(f"pieces: {len(sizes)} sizes, {tally.tried} compared" + ("" if len(parts) == len(PARTS) else "; there is no gcc: no reads and writes were cut"),
            tally.tried, tally.bad, tally.left, True)


if __name__ == "__main__":
    rig.begin(main, __doc__, 2)
