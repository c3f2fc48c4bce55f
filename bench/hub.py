"""Serves a file of COUNT edits of one guild to four workers, each with a reader of the guild's hub, and says how long it took and the
peak of memory: hub.py PROGRAM COUNT.. It ends with 0 if each log was whole and each status 0."""
import os
import socket
import subprocess
import sys
import tempfile
import time

sys.path.insert(0, os.path.join(os.path.dirname(os.path.abspath(__file__)), "../examples/clients"))
from server import free_port

WORKERS = 4
OPEN = '{"step":"edit","guild":"1","do":"guild_open","name":"den","owner":"5","owner_name":"ann","perms":"1024","at":0}\n'
RENAME = '{"step":"edit","guild":"1","do":"guild_rename","name":"hut"}\n'


def measure(program, path, count):
    """Whether the server ended with 0 and a log of all entries."""
    with open(path, "w") as file:
        file.write('{"step":"guild","id":"1"}\n' + OPEN + RENAME * (count - 1))
    port, begun = free_port(WORKERS), time.monotonic()
    child = subprocess.Popen([program, "serve", str(port), str(WORKERS), "1", path], stdout=subprocess.PIPE)
    try:
        shown = [child.stdout.readline() for _ in range(WORKERS)]
        # A worker ends when it has accepted a connection, that has closed, and its logs are sealed.
        for place in range(WORKERS if shown[-1] else 0):
            socket.create_connection(("127.0.0.1", port + place)).close()
        line = child.stdout.readline().decode()
        child.stdout.read()
        _, status, used = os.wait4(child.pid, 0)
        child.returncode = status
    finally:
        child.kill()
    seconds = time.monotonic() - begun
    whole = line.startswith(f"guild 1 entries {count} accepted {count} ")
    print(f"{count} entries: status {status}, whole: {whole}, {seconds:.2f} s, {seconds / count * 1e6:.2f} us an entry, "
          f"peak memory {used.ru_maxrss / 1024:.1f} MiB")
    return whole and status == 0


def main(program, *counts):
    with tempfile.TemporaryDirectory() as folder:
        right = [measure(program, os.path.join(folder, "edits.jsonl"), int(count)) for count in counts]
    sys.exit(not all(right))


main(*sys.argv[1:])
