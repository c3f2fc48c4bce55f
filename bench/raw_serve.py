#!/usr/bin/env python3
"""Raw bytes at `serve`, while one good client stays right to the end: raw_serve.py [PROGRAM [SECONDS [PINGS]]] [--count COUNT]

Goes on where hostile.py ends, with its server, its good client and its end: handshakes that are wrong in each part, frames without a mask,
with reserved bits, of reserved kinds, with lengths up to 2^64 - 1 or longer than they need be, control frames that are too long or in parts,
closes with codes that may not be sent, parts without a beginning, texts that are no UTF-8, random frames, random gateway frames, PINGS
(50,000) pings of a peer that reads no answer, and heartbeats past the rate. A peer whose frames break the protocol has to be ended within
PATIENCE (10) seconds; a binary message that is no UTF-8 is answered with 4002, too many heartbeats with 4008. All kinds come in turn for SECONDS
(60), once at least, by a fixed seed (SEED or 1); with a COUNT until COUNT random frames were sent, ten times as many of them beside
the others. The peak of memory may not be above MOST_MIB (512)."""
import os
import random
import select
import struct
import sys
import time

sys.path[:0] = [os.path.join(os.path.dirname(os.path.abspath(__file__)), place) for place in ("", "faults")]
import hostile
import rig
from gateway import BINARY, CLOSE, PING, PONG, TEXT, Link, Wrong, handshake, masked
from hostile import push

# How long an answer may take.
PATIENCE = float(os.environ.get("PATIENCE", "10"))
MOST_KIB = int(os.environ.get("MOST_MIB", "512")) << 10
PEERS = 24
made = random.Random(os.environ.get("SEED", "1"))


class Host(hostile.Host):
    """The server. What came after a handshake is kept, so that frames are read from their beginning."""

    def __init__(self, *words):
        self.come, self.frames = {}, 0
        super().__init__(*words)

    def upgraded(self):
        self.left -= 1
        link = Link(self.url, PATIENCE)
        self.come[link.socket] = bytes(link.come)
        return link.socket


def noise(size):
    return hostile.noise(made, size)


def head(first, size, mask=True, form=None):
    """The head of a frame, its length written in the form asked for: 7, 16 or 64 bits."""
    form = form or (7 if size < 126 else 16 if size < 65536 else 64)
    bit = 0x80 if mask else 0
    length = {7: struct.pack("!B", bit | size & 127), 16: struct.pack("!BH", bit | 126, size & 65535), 64: struct.pack("!BQ", bit | 127, size)}[form]
    return bytes([first]) + length + (b"\0\0\0\0" if mask else b"")


def answered(host, peer):
    """All that the server sends until it ends the connection, and whether it did in time."""
    come, until = bytearray(host.come.pop(peer)), time.monotonic() + PATIENCE
    peer.setblocking(False)
    while True:
        left = until - time.monotonic()
        if left <= 0 or not select.select([peer], [], [], left)[0]:
            return bytes(come), False
        try:
            piece = peer.recv(65536)
        except OSError:
            return bytes(come), True
        if not piece:
            return bytes(come), True
        come += piece


def close_codes(come):
    """The codes of the Close frames among what a server sent after its handshake."""
    at, codes = 0, []
    while at + 2 <= len(come):
        first, size, start = come[at], come[at + 1] & 127, at + 2
        if size == 126:
            size, start = int.from_bytes(come[start:start + 2], "big"), start + 2
        elif size == 127:
            size, start = int.from_bytes(come[start:start + 8], "big"), start + 8
        if first & 15 == CLOSE:
            codes.append(int.from_bytes(come[start:start + 2], "big"))
        at = start + size
    return codes


def broken(host, pieces, code=None):
    """A peer for each of these pieces, which break the protocol; the server has to end it, with this code if there is one."""
    peers = []
    for piece in pieces:
        peer = host.upgraded()
        push(peer, piece)
        peers.append((piece, peer))
    for piece, peer in peers:
        come, ended = answered(host, peer)
        if not ended:
            raise Wrong(f"the server did not end a peer that sent {piece[:40]!r}")
        if code and code not in close_codes(come):
            raise Wrong(f"the server closed with {close_codes(come)} and not with {code} a peer that sent {piece[:40]!r}")
    return [peer for _, peer in peers]


def wrong_handshakes(host):
    """Requests with one line left out, doubled, cut or changed, and such as are none."""
    lines = handshake(host.url)[0].split(b"\r\n")[:-2]
    requests = []
    for place in range(len(lines)):
        requests += [lines[:place] + lines[place + 1:], lines[:place] + [lines[place][:made.randrange(len(lines[place]))]] + lines[place + 1:],
                     lines[:place] + [lines[place] + noise(4)] + lines[place + 1:], lines + [lines[place]]]
    texts = [b"\r\n".join(request) + b"\r\n\r\n" for request in made.sample(requests, 16)]
    texts += [b"\n".join(lines) + b"\n\n", b"\r\n\r\n", b"GET / HTTP/1.0\r\n\r\n", b"POST / HTTP/1.1\r\n\r\n", b"\x16\x03\x01\x02\x00\x01\x00\x01\xfc\x03\x03" + noise(500),
              b"\r\n".join(lines) + b"\r\n" + b"".join(b"X-%d: 1\r\n" % it for it in range(5000)) + b"\r\n", b"\r\n".join(lines) + b"\r\nX: " + b"x" * 300000 + b"\r\n\r\n",
              lines[0] + b"\r\n" + b" folded: 1\r\n" + b"\r\n".join(lines[1:]) + b"\r\n\r\n"]
    peers = []
    for text in texts:
        peers.append(host.connect())
        push(peers[-1], text)
    time.sleep(1)
    return peers


def without_masks(host):
    return broken(host, [head(0x80 | kind, size, mask=False) + b"x" * size for kind in (TEXT, BINARY, PING, PONG, CLOSE) for size in (2, 100)])


def reserved(host):
    return broken(host, [head(0x80 | bits | kind, 4) + b"abcd" for bits, kind in [(bits, kind) for bits in (0x40, 0x20, 0x10, 0x70) for kind in (TEXT, PING)]
                         + [(0, kind) for kind in (3, 4, 5, 6, 7, 11, 12, 13, 14, 15)]])


def wrong_controls(host):
    return broken(host, [head(kind, 2) + b"\x03\xe8" for kind in (PING, PONG, CLOSE)] + [head(0x80 | kind, 126) + b"x" * 126 for kind in (PING, PONG, CLOSE)]
                  + [head(0x80 | CLOSE, 1) + b"\x03"] + [masked(CLOSE, struct.pack("!H", code)) for code in (0, 999, 1004, 1005, 1006, 1015, 2999, 5000, 65535)]
                  + [masked(CLOSE, struct.pack("!H", 1000) + b"\xff\xfe")])


def wrong_parts(host):
    return broken(host, [head(0x80, 2) + b"ab", head(0, 2) + b"ab" * 1, head(TEXT, 2) + b"ab" + head(0x80 | TEXT, 2) + b"ab", head(TEXT, 0) + head(BINARY, 1) + b"a"])


def no_utf8(host):
    """A text that is no UTF-8, in one part or in two, ends its link; a binary message is taken, and one that is no UTF-8 is no frame."""
    bad = [b"\xff", b"{\"op\":1,\"x\":\"\xc3\"}", b"\xed\xa0\x80", b"\xf4\x90\x80\x80", b"\xc0\xaf"]
    peers = broken(host, [masked(TEXT, text) for text in bad] + [head(TEXT, 1) + b"\xc3" + head(0x80, 1) + b"\xc3"])
    return peers + broken(host, [masked(BINARY, text) for text in bad], 4002)


def huge_lengths(host):
    """Lengths of up to 2^64 - 1, and such as are written in more bytes than they need."""
    peers = []
    for place in range(PEERS):
        peer = host.upgraded()
        size = made.choice([1 << 20, 1 << 26, 1 << 31, 1 << 32, 1 << 62, (1 << 63) - 1, 1 << 63, (1 << 64) - 1])
        push(peer, head(0x80 | made.choice([TEXT, BINARY]), size, form=64) + noise(100))
        if place % 2:
            push(peer, head(0x80 | TEXT, 10, form=64) + b'{"op":1}  ' + head(0x80 | TEXT, 10, form=16) + b'{"op":1}  ')
        peers.append(peer)
    time.sleep(1)
    return peers


def many_parts(host):
    """Messages of thousands of parts, most of them empty, with pings between, which never end."""
    peers = [host.upgraded() for _ in range(4)]
    for peer in peers:
        push(peer, head(TEXT, 1) + b" " + (head(0, 0) * 20 + head(0, 1) + b" " + head(0x80 | PING, 0)) * 2000)
    time.sleep(0.5)
    return peers


def random_frames(host):
    """Frames of chance: any first byte, any length, with a mask or without, whole or not."""
    peers = []
    for _ in range(PEERS):
        peer, data, count = host.upgraded(), b"", made.randrange(1, 30)
        host.frames += count
        for _ in range(count):
            size = made.choice([0, 1, 2, 5, 125, 126, 127, 300, 4096, 4097, 65535, 65536])
            first = made.choice([0x81, 0x81, 0x82, 0x89, 0x8A, 0x01, 0x00, 0x80, made.getrandbits(8)])
            data += head(first, size, made.randrange(20) > 0, made.choice([None, None, None, 16, 64])) + noise(min(size, 5000)) + b"a" * max(0, size - 5000)
        push(peer, data[:made.choice([len(data), made.randrange(len(data) + 1)])])
        peers.append(peer)
    time.sleep(0.5)
    return peers


def gateway_frames(host):
    """Texts made of gateway frames by a change of some bytes."""
    good = [b'{"op":1,"d":null}', b'{"op":2,"d":{"token":"t1","intents":513,"properties":{}}}', b'{"op":3,"d":{"status":"idle"}}', b'{"op":4,"d":{"guild_id":"1","channel_id":null}}',
            b'{"op":6,"d":{"token":"t1","session_id":"w0s1","seq":1}}', b'{"op":8,"d":{"guild_id":"1","query":"","limit":0}}', b'{"op":8,"d":{"guild_id":"1","user_ids":["9"]}}']
    peers = []
    for _ in range(PEERS):
        peer, count = host.upgraded(), made.randrange(1, 40)
        host.frames, host.wishes = host.frames + count, host.wishes + count
        for _ in range(count):
            text = bytearray(made.choice(good))
            for _ in range(made.choice([0, 1, 1, 2, 3])):
                place = made.randrange(len(text))
                text[place:place + made.randrange(3)] = made.choice([b"", b'"', b"{", b"}", b"\\", b"9" * 30, b"\xc3\xa9", b"null", bytes([made.randrange(32, 127)])])
            # The good client's own session is not to be taken.
            if b"w0s1" not in text:
                push(peer, masked(TEXT, bytes(text)))
        push(peer, masked(CLOSE, struct.pack("!H", 1000)))
        peers.append(peer)
    time.sleep(0.5)
    return peers


def pings(host, count):
    """Pings whose answers are not read, of four peers."""
    peers = [host.upgraded() for _ in range(4)]
    piece = masked(PING, b"p" * 125) * 100
    for place in range(count // 400):
        push(peers[place % 4], piece)
    for peer in peers:
        for _ in range(count // 1600):
            push(peer, piece)
    time.sleep(0.5)
    return peers


def heartbeats(host):
    return broken(host, [masked(TEXT, b'{"op":1,"d":null}') * 300 for _ in range(3)], 4008)


KINDS = [wrong_handshakes, without_masks, reserved, wrong_controls, wrong_parts, no_utf8, huge_lengths, many_parts, random_frames, gateway_frames, heartbeats]


# How often these come in a round, if so many frames of chance are asked for.
OFTEN = {random_frames: 10, gateway_frames: 10}


def main(gate=os.path.join(hostile.ROOT, "out/gate"), seconds=60, flood=50000, count=0):
    seconds, accepts = float(seconds), 5000 + count // 12 if count else int(1000 + 60 * float(seconds))
    host = Host(gate, accepts, 1)
    rounds = 0

    def goes_on(until):
        return host.left > 400 + 500 * bool(count) and (host.frames < count if count else time.monotonic() < until)

    def visits():
        nonlocal rounds
        until = time.monotonic() + seconds
        while not rounds or goes_on(until):
            for kind in KINDS:
                for _ in range(OFTEN.get(kind, 1) if count else 1):
                    hostile.play(host, kind)
            hostile.play(host, pings, int(flood))
            rounds += 1

    right = hostile.visited("raw serve", host, visits)
    highest = max(host.peaks.values(), default=0)
    if highest > MOST_KIB or host.frames < count:
        print(f"the peak of memory was {highest / 1024:.1f} MiB, and {host.frames} frames of chance were sent")
        right = False
    print(f"raw serve: {rounds} rounds of {len(KINDS) + 1} kinds, {accepts - host.left} connections, {host.frames} frames of chance, "
          f"peak memory {highest / 1024:.1f} MiB: {'all right' if right else 'not right'}")
    sys.exit(not right)


if __name__ == "__main__":
    rig.begin(main, __doc__, 3)
