#!/usr/bin/env python3
"""`gate serve` under a test process, which sends it edits through a pipe while bots are connected."""
import atexit
import os
import random
import socket
import subprocess

ROOT = os.path.join(os.path.dirname(os.path.abspath(__file__)), "../..")
DOOR_FAILED = 7


def free_port(count):
    """A port that is free now, with the count - 1 ports after it."""
    while True:
        port = random.randrange(20000, 32000)
        doors = [socket.socket() for _ in range(count)]
        try:
            for place, door in enumerate(doors):
                door.bind(("127.0.0.1", port + place))
            return port
        except OSError:
            pass
        finally:
            for door in doors:
                door.close()


def program():
    """The program that GATE names, or else ./gate, which proves and builds it on its first use."""
    return os.environ.get("GATE") or os.path.join(ROOT, "gate")


class Server:
    """A server whose one file is a pipe. It says where it listens only once it has read the first edit, so `opening` must
    have one."""

    def __init__(self, opening, workers=1, accepts=1, gate=None):
        opening = list(opening)
        for _ in range(5):
            port = free_port(workers)
            words = [gate or program(), "serve", str(port), str(workers), str(accepts), "-"]
            self.process = subprocess.Popen(words, stdin=subprocess.PIPE, stdout=subprocess.PIPE)
            atexit.register(self.process.kill)
            try:
                self.write(opening)
            except BrokenPipeError:
                pass
            lines = [self.process.stdout.readline().decode().split() for _ in range(workers)]
            if all(line[:1] == ["worker"] for line in lines):
                self.urls = [url for _, _, url in lines]
                return
            self.process.stdin.close()
            if self.process.wait() != DOOR_FAILED:
                break
        raise OSError(f"{words[0]} serve ended with {self.process.returncode}")

    def write(self, lines):
        """Sends these lines of a step file, given as bytes with their line feeds."""
        self.process.stdin.write(b"".join(lines))
        self.process.stdin.flush()

    def end(self, seconds=30):
        """Ends the pipe, and waits until each worker has accepted its connections and all have ended. The status and the
        lines."""
        self.process.stdin.close()
        self.process.stdin = None
        try:
            lines = self.process.communicate(timeout=seconds)[0].decode().splitlines()
        except subprocess.TimeoutExpired:
            self.kill()
            raise
        return self.process.returncode, lines

    def kill(self):
        self.process.kill()
        self.process.wait()
