#!/usr/bin/env python3
"""A small client of the Gateway: a WebSocket of its own, and a bot that heartbeats and resumes. Standard library alone."""
import base64
import hashlib
import json
import os
import socket
import struct
import time
import urllib.parse

TEXT, BINARY, CLOSE, PING, PONG = 1, 2, 8, 9, 10
MAGIC = b"258EAFA5-E914-47DA-95CA-C5AB0DC85B11"


class Closed(Exception):
    """A link has ended, with a close code; 1005 if the Close frame has none, 1006 if there was no Close frame."""

    def __init__(self, code):
        super().__init__(f"closed with {code}")
        self.code = code


class Wrong(Exception):
    """The server did what it must not do."""


def masked(kind, body):
    """A whole frame of a client, of which each byte of the body is masked."""
    size, mask = len(body), os.urandom(4)
    if size < 126:
        head = struct.pack("!BB", 0x80 | kind, 0x80 | size)
    elif size < 65536:
        head = struct.pack("!BBH", 0x80 | kind, 0x80 | 126, size)
    else:
        head = struct.pack("!BBQ", 0x80 | kind, 0x80 | 127, size)
    return head + mask + bytes(byte ^ mask[place % 4] for place, byte in enumerate(body))


def handshake(url):
    """The request that asks for a WebSocket, and the key by which it is accepted."""
    parts = urllib.parse.urlsplit(url)
    key = base64.b64encode(os.urandom(16))
    target = (parts.path or "/") + ("?" + parts.query if parts.query else "")
    request = (f"GET {target} HTTP/1.1\r\nHost: {parts.netloc}\r\nUpgrade: websocket\r\nConnection: Upgrade\r\n"
               f"Sec-WebSocket-Key: {key.decode()}\r\nSec-WebSocket-Version: 13\r\n\r\n")
    return request.encode(), base64.b64encode(hashlib.sha1(key + MAGIC).digest())


class Link:
    """A WebSocket over TCP, as a client."""

    def __init__(self, url, seconds=10):
        parts = urllib.parse.urlsplit(url)
        self.socket = socket.create_connection((parts.hostname, parts.port or 80), seconds)
        self.socket.setsockopt(socket.IPPROTO_TCP, socket.TCP_NODELAY, 1)
        self.come = bytearray()  # what has come and is not read
        self.parts = []  # the frames of a message that has not ended
        request, accepted = handshake(url)
        self.socket.sendall(request)
        end, deadline = -1, time.monotonic() + seconds
        while (end := self.come.find(b"\r\n\r\n")) < 0:
            if not self._read(deadline):
                raise TimeoutError("no answer to the handshake")
        first, *lines = bytes(self.come[:end]).split(b"\r\n")
        del self.come[:end + 4]
        fields = {name.strip().lower(): value.strip() for name, _, value in (line.partition(b":") for line in lines)}
        if first.split()[1:2] != [b"101"] or fields.get(b"sec-websocket-accept") != accepted:
            raise Wrong(f"no WebSocket: {first!r}")

    def _read(self, deadline):
        """Waits for bytes. Whether some came before the deadline."""
        left = None if deadline is None else deadline - time.monotonic()
        if left is not None and left <= 0:
            return False
        self.socket.settimeout(left)
        try:
            piece = self.socket.recv(65536)
        except socket.timeout:  # which is TimeoutError from Python 3.10 on
            return False
        except OSError:
            raise Closed(1006) from None
        if not piece:
            raise Closed(1006)
        self.come += piece
        return True

    def _frame(self):
        """The next whole frame that has come: its first byte and its body."""
        if len(self.come) < 2:
            return None
        size, start = self.come[1] & 127, 2
        if size > 125:
            start = 4 if size == 126 else 10
            if len(self.come) < start:
                return None
            size = int.from_bytes(self.come[2:start], "big")
        if len(self.come) < start + size:
            return None
        first, body = self.come[0], bytes(self.come[start:start + size])
        del self.come[:start + size]
        return first, body

    def receive(self, deadline=None):
        """The next text, or None if none came before the deadline, a moment of time.monotonic()."""
        while True:
            frame = self._frame()
            if not frame:
                if not self._read(deadline):
                    return None
                continue
            first, body = frame
            kind = first & 15
            if kind == PING:
                self._write(masked(PONG, body))
            elif kind == CLOSE:
                code = int.from_bytes(body[:2], "big") if body else 1005
                self.end(None if code == 1005 else code)
                raise Closed(code)
            elif kind != PONG:
                self.parts.append(body)
                if first & 128:
                    text, self.parts = b"".join(self.parts), []
                    return text.decode()

    def _write(self, data):
        self.socket.settimeout(10)
        try:
            self.socket.sendall(data)
        except OSError:
            raise Closed(1006) from None

    def send(self, text):
        self._write(masked(TEXT, text.encode()))

    def end(self, code=1000):
        """Sends a Close frame, and lets go of the connection."""
        try:
            self._write(masked(CLOSE, b"" if code is None else struct.pack("!H", code)))
        except Closed:
            pass
        self.drop()

    def drop(self):
        """Lets go of the connection without a Close frame."""
        self.socket.close()


class Bot:
    """A bot. It heartbeats while it waits, resumes if it has a session, and checks the number of each dispatch."""

    def __init__(self, url, token, intents):
        self.url, self.token, self.intents = url, token, intents
        self.session, self.number = None, 0
        self.resumes_refused = self.acks = 0

    def connect(self):
        """Opens a link, and identifies or resumes on it."""
        self.link = Link(self.url + "/?v=10&encoding=json")
        hello = self._receive(time.monotonic() + 10)
        if not hello or hello["op"] != 10:
            raise Wrong(f"no Hello but {hello}")
        self.interval = hello["d"]["heartbeat_interval"] / 1000
        self.acked = True
        self._heartbeat()
        self._begin()

    def _begin(self):
        if self.session:
            self.send(6, {"token": self.token, "session_id": self.session, "seq": self.number})
        else:
            properties = {"os": "linux", "browser": "plain", "device": "plain"}
            self.send(2, {"token": self.token, "intents": self.intents, "properties": properties})

    def send(self, op, data):
        self.link.send(json.dumps({"op": op, "d": data}))

    def _heartbeat(self):
        self.acked, self.beat_at = False, time.monotonic() + self.interval
        self.send(1, self.number or None)

    def _receive(self, deadline):
        text = self.link.receive(deadline)
        return None if text is None else json.loads(text)

    def next(self, seconds=60):
        """The next dispatch, its number, its name and its data, or None if none came in time."""
        deadline = time.monotonic() + seconds
        while True:
            payload = self._receive(min(deadline, self.beat_at))
            if payload is None:
                if time.monotonic() >= deadline:
                    return None
                if not self.acked:
                    raise Closed(1006)
                self._heartbeat()
            elif payload["op"] == 0:
                return self._dispatch(payload["s"], payload["t"], payload["d"])
            elif payload["op"] == 11:
                self.acked = True
                self.acks += 1
            elif payload["op"] == 9:
                self.resumes_refused += 1
                self.session, self.number = None, 0
                self._begin()
            elif payload["op"] == 1:
                self._heartbeat()

    def _dispatch(self, number, name, data):
        wanted = 1 if name == "READY" else self.number if name == "RESUMED" else self.number + 1
        if number != wanted:
            raise Wrong(f"{name} has the number {number} and not {wanted}")
        self.number = number
        if name == "READY":
            self.session, self.url = data["session_id"], data["resume_gateway_url"]
        return number, name, data

    def drop(self):
        self.link.drop()

    def close(self):
        """Ends the session."""
        self.link.end(1000)
