"""Serves examples/clients/edits.jsonl to bots that lose their links twice and resume, to `gate client`, and to the bot that
docs/SERVE.md shows, and a guild at two workers to links of which one at each is lost beside another. Each part runs also where
another has failed, which is then named."""
import ast
import collections
import json
import os
import re
import shutil
import signal
import socket
import struct
import subprocess
import sys
import threading
import time

os.chdir(os.path.join(os.path.dirname(os.path.abspath(__file__)), "../.."))
FOLDER = "examples/clients"
sys.path[:0] = [FOLDER, "bench/faults"]
import rig
from feed import parts
from gateway import Closed, Link, Wrong
from server import Server

LIMIT_SECONDS = 60
FAULTS = (Closed, Wrong, OSError, subprocess.TimeoutExpired)
# Each bot loses its link twice, so it connects three times; each has a worker of its own.
CONNECTIONS = 3
INTENTS = "36739"
# A bot is away for half a second after each loss: at this pace edits are made while it is away, and after it has come back.
PAUSE_SECONDS = 0.03
failures = []


def compare(what, wanted, found):
    if wanted != found:
        failures.append(f"clients: {what}: wanted {wanted}, found {found}")


def compare_fields():
    """The fields that docs/CLIENTS.md says are stood in for, and those of discord_py.py."""
    with open(f"{FOLDER}/discord_py.py") as file:
        lines = [part for part in ast.parse(file.read()).body if isinstance(part, ast.Assign) and part.targets[0].id == "FIELDS"]
    source = {key.value: sorted(field.value for field in value.keys) for key, value in zip(lines[0].value.keys, lines[0].value.values)}
    with open("docs/CLIENTS.md") as file:
        rows = [line.strip("|\n").split("|") for line in file if line.startswith("| ")]
    page = {row[0].strip(): sorted(re.findall(r"`(\w+)`", row[1])) for row in rows if row[0].strip() in source}
    compare("docs/CLIENTS.md: fields that are stood in for", source, page)


def bots():
    """The bots that can be run here, by the words that run them, and why others cannot."""
    node, skipped = shutil.which("node"), []
    found = {"plain.py": [sys.executable]}
    if node:
        found["plain.mjs"] = [node]
    else:
        skipped.append("plain.mjs was skipped: there is no node")
    # Debian installs its package for the system's Python, which may be another than the one that runs this.
    pythons = [sys.executable, *filter(os.path.exists, ["/usr/bin/python3"])]
    has_it = [python for python in pythons if subprocess.run([python, "-c", "import discord"], stderr=subprocess.DEVNULL).returncode == 0]
    if has_it:
        found["discord_py.py"] = has_it[:1]
    else:
        skipped.append("discord_py.py was skipped: discord.py is not installed")
    return found, skipped


class Bot:
    """A bot at work, and the lines that it has printed."""

    def __init__(self, name, words, url, token):
        self.name, self.lines = name, []
        self.process = subprocess.Popen([*words, f"{FOLDER}/{name}", url, token, INTENTS], stdout=subprocess.PIPE, stderr=subprocess.PIPE)
        self.reader = threading.Thread(target=self.read, daemon=True)
        self.reader.start()

    def read(self):
        for line in self.process.stdout:
            self.lines.append(line.decode().rstrip("\n"))

    def greeted(self, guilds):
        """Waits until it has these many guilds, or ends."""
        while self.process.poll() is None and sum(line.endswith(" GUILD_CREATE") for line in self.lines) < guilds:
            time.sleep(0.01)

    def judge(self, sent):
        """Compares what it printed with the names of what it had to be sent."""
        said = self.process.stderr.read().decode().strip()
        compare(f"{self.name}: status", (0, ""), (self.process.wait(), said))
        self.reader.join()
        names = collections.Counter(line.split(" ")[1] for line in self.lines if line[:1].isdigit())
        compare(f"{self.name}: dispatches", {}, dict((sent - names) + (names - sent)))
        *_, last = self.lines or [""]
        right, _, replayed = last.rpartition(", ")
        compare(f"{self.name}: last line", f"right: {sum(sent.values()) - sent['RESUMED']} dispatches, {CONNECTIONS - 1} drops", right)
        compare(f"{self.name}: dispatches were replayed", True, replayed.split(" ")[0] not in ("", "0"))


def receive(link):
    """The next text at a link, which has to come in time."""
    text = link.receive(time.monotonic() + LIMIT_SECONDS)
    if text is None:
        raise TimeoutError(f"no text came in {LIMIT_SECONDS} seconds")
    return text


def wait_for_opening(url, token, opening):
    """Waits until the worker at a URL has looked at the edits that come before the bots: a session of its own is told of all the
    channels and members that they make, and they are the last edits of each guild."""
    made = collections.Counter(json.loads(line).get("do") for line in opening)
    channels, members = made["channel_create"], made["guild_open"] + made["member_add"]
    link = Link(url, LIMIT_SECONDS)
    receive(link)
    link.send(json.dumps({"op": 2, "d": {"token": token, "intents": int(INTENTS), "properties": {}}}))
    while channels > 0 or members > 0:
        payload = json.loads(receive(link))
        name, body = payload["t"], payload["d"]
        channels -= len(body["channels"]) if name == "GUILD_CREATE" else name == "CHANNEL_CREATE"
        members -= body["member_count"] if name == "GUILD_CREATE" else name == "GUILD_MEMBER_ADD"
    link.end()


def serve(gate, found):
    opening, later = parts(f"{FOLDER}/edits.jsonl")
    guilds = sum(json.loads(line)["step"] == "guild" for line in opening)
    notes = " ".join(json.loads(line)["note"] for line in later).replace("nothing", "").split()
    sent = collections.Counter(["READY", *["GUILD_CREATE"] * guilds, *["RESUMED"] * (CONNECTIONS - 1), *notes])
    server, at_work = Server(opening, len(found), 1 + CONNECTIONS, gate), []
    try:
        for place, (name, words) in enumerate(found.items()):
            wait_for_opening(server.urls[place], f"t{place + 1}", opening)
            at_work.append(Bot(name, words, server.urls[place], f"t{place + 1}"))
        for bot in at_work:
            bot.greeted(guilds)
        for line in later:
            server.write([line])
            time.sleep(PAUSE_SECONDS)
        for bot in at_work:
            bot.judge(sent)
        if all(bot.process.returncode == 0 for bot in at_work):
            status, lines = server.end()
            with open(f"{FOLDER}/edits.out") as file:
                compare("what serve wrote", (0, file.read().splitlines()), (status, lines))
    finally:
        server.kill()
        for bot in at_work:
            bot.process.kill()


def follow(gate):
    """`gate client` with a token that no bot has, and as docs/CLIENT.md shows it."""
    with open("docs/CLIENT.md") as file:
        page = re.findall(r"^    (\d+ [A-Z_]+|guild \d.*)$", file.read(), re.M)
    opening, later = parts(f"{FOLDER}/edits.jsonl")
    server, client = Server(opening, 1, 3, gate), None
    try:
        wait_for_opening(server.urls[0], "t1", opening)
        words = [gate, "client", server.urls[0]]
        run = subprocess.run([*words, "t0", INTENTS, "1"], stdout=subprocess.PIPE, stderr=subprocess.DEVNULL, timeout=LIMIT_SECONDS)
        compare("client with a token that no bot has", (10, "closed 4004\n"), (run.returncode, run.stdout.decode()))
        client = subprocess.Popen([*words, "t1", INTENTS, "4"], stdout=subprocess.PIPE)
        lines = [client.stdout.readline() for _ in range(3)]
        server.write(later[:1])
        lines += client.stdout.readlines()
        compare("client of docs/CLIENT.md", (0, page), (client.wait(), [line.decode().rstrip("\n") for line in lines]))
        compare("serve beside client", 0, server.end()[0])
    finally:
        server.kill()
        if client:
            client.kill()


# A guild, and what the second bot of worker W is sent of it, at a URL.
DEN = [b'{"step":"bot","token":"t1","user":"9","name":"bee","privileged":2}\n', b'{"step":"guild","id":"1"}\n',
       b'{"step":"edit","guild":"1","do":"guild_open","name":"den","owner":"5","owner_name":"ann","perms":"0","at":0}\n',
       b'{"step":"edit","guild":"1","do":"member_add","user":"9","name":"bee","bot":true,"at":0}\n']
RENAME = b'{"step":"edit","guild":"1","do":"guild_rename","name":"hut"}\n'
HELLO = '{"d":{"heartbeat_interval":41250},"op":10,"s":null,"t":null}'
IDENTIFY = '{"op":2,"d":{"token":"t1","intents":1,"properties":{}}}'
IDLE = '{"op":3,"d":{"since":null,"activities":[],"status":"idle","afk":false}}'
SENT = ['{"d":{"application":{"flags":0,"id":"9"},"guilds":[{"id":"1","unavailable":true}],"resume_gateway_url":"URL","session_id":"wWs2",'
        '"user":{"bot":true,"id":"9","username":"bee"},"v":10},"op":0,"s":1,"t":"READY"}',
        '{"d":{"channels":[],"id":"1","large":false,"member_count":2,"members":[{"communication_disabled_until":null,"joined_at":'
        '"1970-01-01T00:00:00.000000+00:00","nick":null,"roles":[],"user":{"bot":true,"id":"9","username":"bee"}}],"name":"den","owner_id":"5",'
        '"presences":[],"roles":[{"id":"1","name":"@everyone","permissions":"0","position":0}],"threads":[],"voice_states":[]},"op":0,"s":2,'
        '"t":"GUILD_CREATE"}',
        '{"d":{"id":"1","name":"hut","owner_id":"5"},"op":0,"s":3,"t":"GUILD_UPDATE"}']
ENDED = ["guild 1 entries 4 accepted 4 members 2 roles 1 channels 0 active 0 archived 0", "strays 0"]


def reset(link):
    """Lets go of the connection so that the server finds it lost, on a read or on a send, whichever comes first."""
    link.socket.setsockopt(socket.SOL_SOCKET, socket.SO_LINGER, struct.pack("ii", 1, 0))
    link.drop()


def lose_one_of_two(gate):
    """Two workers at once, each with two links: none identifies before all were sent Hello. The first link of each is lost before an
    edit, and the second one is sent what it is sent alone, text by text; at last one of them asks for a wish, which enters the log."""
    server = Server(DEN, 2, 2, gate)
    try:
        links = [(place, Link(url, LIMIT_SECONDS)) for place, url in enumerate(server.urls) for _ in range(2)]
        compare("Hello of two workers", [HELLO] * 4, [receive(link) for _, link in links])
        first, second = links[::2], links[1::2]
        for _, link in first:
            link.send(IDENTIFY)
            while '"t":"GUILD_CREATE"' not in receive(link):
                pass
        for _, link in second:
            link.send(IDENTIFY)
        shown = [[receive(link) for _ in range(2)] for _, link in second]
        for _, link in first:
            reset(link)
        server.write([RENAME])
        for place, link in second:
            shown[place].append(receive(link))
            wanted = [text.replace("URL", server.urls[place]).replace("wWs", f"w{place}s") for text in SENT]
            compare(f"a link beside one that is lost, at worker {place}", wanted, shown[place])
        second[0][1].send(IDLE)
        for _, link in second:
            link.end()
        compare("serve beside links that are lost", (0, ENDED), server.end())
    finally:
        server.kill()


def run_page(gate):
    """The test process that docs/SERVE.md shows."""
    with open("docs/SERVE.md") as file:
        code = re.search(r"```python\n(.*?)```", file.read(), re.S)[1]
    opening, _ = parts(f"{FOLDER}/edits.jsonl")
    os.environ["GATE"], shown = gate, {"opening": opening}
    try:
        exec(code, shown)
    finally:
        if "server" in shown:
            shown["server"].kill()
    compare("the test process of docs/SERVE.md", (0, ["guild", "guild", "strays"]), (shown["status"], [line.split(" ")[0] for line in shown["lines"]]))


def out_of_time(*_):
    # A link takes an OSError for its end.
    raise subprocess.TimeoutExpired("the part", LIMIT_SECONDS)


def run(part, *words):
    """Runs a part, which ends in time; if it fails, the others run even so."""
    signal.alarm(LIMIT_SECONDS)
    try:
        part(*words)
    except FAULTS as fault:
        failures.append(f"clients: {part.__name__}: {type(fault).__name__}: {fault}")
    finally:
        signal.alarm(0)


def main():
    compare_fields()
    gate = rig.program("clients")
    if not gate:
        return
    found, skipped = bots()
    before = len(failures)
    signal.signal(signal.SIGALRM, out_of_time)
    run(serve, gate, found)
    run(follow, gate)
    run(lose_one_of_two, gate)
    run(run_page, gate)
    print("; ".join([f"clients: {', '.join(found)}: {len(failures) - before} answered otherwise", *skipped]))


main()
print(*failures, sep="\n", end="\n" if failures else "")
sys.exit(bool(failures))
