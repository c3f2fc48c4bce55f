"""Plays files and words that bot authors get wrong, and compares what the built program says: its status, the
last line of the transcript and the line on standard error. Without a built program nothing is played. With the word
`say` it prints what was said of each."""
import base64
import hashlib
import os
import re
import resource
import shutil
import socket
import subprocess
import sys
import tempfile
import threading

os.chdir(os.path.join(os.path.dirname(os.path.abspath(__file__)), "../.."))
sys.path[:0] = ["bench/faults", "examples/clients"]
import rig
from server import free_port

BOT = '{"step":"bot","token":"t1","user":"9","name":"bee","privileged":33026}'
GUILD = '{"step":"guild","id":"1"}'
OPEN = '{"step":"edit","guild":"1","do":"guild_open","name":"den","owner":"5","owner_name":"ann","perms":"1024","at":0}'
BEE = '{"step":"edit","guild":"1","do":"member_add","user":"9","name":"bee","bot":true,"at":0}'
LOOK = '{"step":"look","worker":0,"guild":"1"}'
CONN = '{"step":"open","worker":0,"conn":1}'
IDENTIFY = '{"step":"frame","conn":1,"text":"{\\"op\\":2,\\"d\\":{\\"token\\":\\"t1\\",\\"intents\\":1,\\"properties\\":{}}}"}'
HEAD, OPENED = [BOT, GUILD], [BOT, GUILD, OPEN]
READY = ('send 1 {"d":{"application":{"flags":0,"id":"9"},"guilds":[%s],"resume_gateway_url":"ws://w0.gate.invalid","session_id":"w0s1",'
         '"user":{"bot":true,"id":"9","username":"bee"},"v":10},"op":0,"s":1,"t":"READY"}')
CREATE = ('send 1 {"d":{"channels":[],"id":"1","large":false,"member_count":2,"members":[{"communication_disabled_until":null,'
          '"joined_at":"1970-01-01T00:00:00.000000+00:00","nick":null,"roles":[],"user":{"bot":true,"id":"9","username":"bee"}}],"name":"den",'
          '"owner_id":"5","presences":[],"roles":[{"id":"1","name":"@everyone","permissions":"1024","position":0}],"threads":[],"voice_states":[]},'
          '"op":0,"s":2,"t":"GUILD_CREATE"}')
USAGE = "usage: gate run FILE | serve PORT WORKERS ACCEPTS FILES | client URL TOKEN INTENTS COUNT | load SEED | lift FILE"


def edit(fields):
    return '{"step":"edit","guild":"1",%s}' % fields


def frame(text):
    return '{"step":"frame","conn":1,"text":"%s"}' % text.replace('"', '\\"')


def wrong(what, fields, fault):
    """An edit of an open guild at which its file stops."""
    return what, OPENED + [edit(fields)], "stop line 4 " + fault


ROLE = '"do":"role_create","role":"11","name":"mod","perms":%s,"position":%s'
CHANNEL = '"do":"channel_create","channel":"7",%s,"name":"a","parent":null,"position":0,"sync":false'
MESSAGE = '"do":"message_create","message":"%s","channel":"7","author":"5","content":"%s","mentions":[],"embeds":%s,"attachments":0,"components":0'

# What was wrong, the lines of the file, and the last line of the transcript.
LINES = [
    ("a comment", ["# bots", BOT], "stop line 1 1 NotJson"),
    ("a comment with slashes", [BOT, "// guilds", GUILD], "stop line 2 1 NotJson"),
    ("a trailing comma", ['{"step":"guild","id":"1",}'], "stop line 1 1 NotJson"),
    ("single quotes", ["{'step':'guild','id':'1'}"], "stop line 1 1 NotJson"),
    ("a key without quotes", ['{step:"guild","id":"1"}'], "stop line 1 1 NotJson"),
    ("a byte order mark", ["\ufeff" + BOT], "stop line 1 1 NotJson"),
    ("a byte order mark before an empty first line", ["\ufeff", BOT], "stop line 1 1 NotJson"),
    ("UTF-16", (BOT + "\n").encode("utf-16"), "stop line 1 1 NotJson"),
    ("a byte that is not UTF-8", b'{"step":"bot","token":"t1","user":"9","name":"be\xe9","privileged":0}\n', "stop line 1 1 NotJson"),
    wrong("True of Python", '"do":"member_add","user":"6","name":"bob","bot":True,"at":0', "1 NotJson"),
    wrong("NaN", '"do":"member_timeout","user":"5","until":NaN', "1 NotJson"),
    ("an object over two lines", ['{"step":"guild",', '"id":"1"}'], "stop line 1 1 NotJson"),
    ("two objects on a line", [GUILD + " " + GUILD], "stop line 1 1 NotJson"),
    ("a list of steps", ["[" + BOT + "]"], "stop line 1 4 WrongType"),
    ("a number", ["7"], "stop line 1 4 WrongType"),
    ("no step", ['{"id":"1"}'], "stop line 1 3 Missing"),
    ("`type` for `step`", ['{"type":"guild","id":"1"}'], "stop line 1 3 Missing"),
    ("an unknown step", ['{"step":"connect","conn":1}'], "stop line 1 2 NoSuchStep"),
    ("a step in capitals", ['{"step":"BOT","token":"t1","user":"9","name":"bee","privileged":0}'], "stop line 1 2 NoSuchStep"),
    ("a bot after an edit", [GUILD, OPEN, BOT], "stop line 3 2 NoSuchStep"),
    ("a guild after an edit", [BOT, GUILD, OPEN, '{"step":"guild","id":"2"}'], "stop line 4 2 NoSuchStep"),
    wrong("an unknown edit", '"do":"role_add","role":"11"', "2 NoSuchStep"),
    wrong("a dispatch's name for an edit", '"do":"GUILD_ROLE_CREATE","role":"11"', "2 NoSuchStep"),
    wrong("`edit` without `do`", '"name":"hut"', "3 Missing"),
    wrong("a misspelt field", '"do":"guild_rename","nme":"hut"', "3 Missing"),
    wrong("`user_id` for `user`", '"do":"member_add","user_id":"6","name":"bob","bot":false,"at":0', "3 Missing"),
    wrong("a null that was left out", '"do":"channel_create","channel":"7","type":0,"name":"a","position":0,"sync":false', "3 Missing"),
    wrong("`kind` for `type`", CHANNEL % '"kind":0', "3 Missing"),
    ("a bot without `privileged`", ['{"step":"bot","token":"t1","user":"9","name":"bee"}'], "stop line 1 3 Missing"),
    ("an open without `worker`", HEAD + ['{"step":"open","conn":1}'], "stop line 3 3 Missing"),
    wrong("a date for a time", '"do":"member_timeout","user":"5","until":"2030-01-01T00:00:00Z"', "4 WrongType"),
    wrong("a time in seconds with a point", '"do":"member_timeout","user":"5","until":1700000000.5', "4 WrongType"),
    wrong("a whole number with a point", ROLE % ('"0"', '1.0'), "4 WrongType"),
    wrong("a negative number", ROLE % ('"0"', '-1'), "4 WrongType"),
    wrong("permissions in hexadecimal", ROLE % ('"0x400"', '1'), "4 WrongType"),
    wrong("permissions by name", ROLE % ('["VIEW_CHANNEL"]', '1'), "4 WrongType"),
    wrong("permissions of 2^53", ROLE % ('"9007199254740992"', '1'), "4 WrongType"),
    ("an id with a letter", ['{"step":"guild","id":"1a"}'], "stop line 1 4 WrongType"),
    ("an id of 2^64", ['{"step":"guild","id":"18446744073709551616"}'], "stop line 1 4 WrongType"),
    ("an intent that is none", ['{"step":"bot","token":"t1","user":"9","name":"bee","privileged":131072}'], "stop line 1 4 WrongType"),
    wrong("a channel type that is none", CHANNEL % '"type":1', "4 WrongType"),
    wrong("a channel type by name", CHANNEL % '"type":"text"', "4 WrongType"),
    wrong("a status that is none", '"do":"presence_set","user":"5","status":"away"', "4 WrongType"),
    wrong("embeds as a list", MESSAGE % (30, "hi", '[]'), "4 WrongType"),
    wrong("eleven embeds", MESSAGE % (30, "hi", '11'), "4 WrongType"),
    ("a fifth worker", HEAD + ['{"step":"look","worker":4,"guild":"1"}'], "stop line 3 4 WrongType"),
    ("a connection by name", HEAD + ['{"step":"open","worker":0,"conn":"a"}'], "stop line 3 4 WrongType"),
    ("a frame that is an object", HEAD + [CONN, '{"step":"frame","conn":1,"text":{"op":1,"d":null}}'], "stop line 4 4 WrongType"),
    ("a token of 101 bytes", ['{"step":"bot","token":"%s","user":"9","name":"bee","privileged":0}' % ("t" * 101)], "stop line 1 5 TooLong"),
    ("33 guilds", ['{"step":"guild","id":"%d"}' % number for number in range(1, 34)], "stop line 33 5 TooLong"),
    ("a line of 65,537 bytes", [BOT, " " * 65537], "stop line 2 5 TooLong"),
    ("line 1,000,001", [""] * 1000000 + [BOT], "stop line 1000001 5 TooLong"),
    ("an edit of a guild that is not open", HEAD + [BEE], "refused 3 1 NotOpen"),
    ("an edit of an undeclared guild", [BOT, OPEN], "refused 2 1 NotOpen"),
    ("a role without `role_create`", OPENED + [edit('"do":"member_role_add","user":"5","role":"11"')], "refused 4 4 UnknownRole"),
    ("a thread in a voice channel", OPENED + [
        edit('"do":"channel_create","channel":"8","type":2,"name":"v","parent":null,"position":0,"sync":false'),
        edit('"do":"thread_create","thread":"20","parent":"8","type":11,"name":"t","owner":"5","at":0')], "refused 5 10 WrongType"),
    ("Identify with a prefix `Bot `", OPENED + [CONN, frame('{"op":2,"d":{"token":"Bot t1","intents":1,"properties":{}}}')], "close 1 4004"),
    ("Identify with an intent that is none", OPENED + [CONN, frame('{"op":2,"d":{"token":"t1","intents":131072,"properties":{}}}')], "close 1 4013"),
    ("Identify without `intents`", OPENED + [CONN, frame('{"op":2,"d":{"token":"t1","properties":{}}}')], "close 1 4002"),
    ("a request before Identify", OPENED + [CONN, frame('{"op":8,"d":{"guild_id":"1","query":"","limit":0}}')], "close 1 4003"),
    ("Identify twice", OPENED + [CONN, IDENTIFY, IDENTIFY], "close 1 4005"),
    ("a frame that is no JSON", OPENED + [CONN, frame("hello")], "close 1 4002"),
    # In these nothing is wrong; the bot is sent no more than this.
    ("no look before Identify", OPENED + [BEE, CONN, IDENTIFY], READY % ""),
    ("no look after an edit", OPENED + [BEE, LOOK, CONN, IDENTIFY, edit('"do":"guild_rename","name":"hut"')], CREATE),
    ("a look that is too late", OPENED + [BEE, LOOK, CONN, IDENTIFY] + [edit('"do":"guild_rename","name":"hut"')] * 4097 + [LOOK], "close 1 4000"),
    ("a look of another worker", OPENED + [BEE, '{"step":"look","worker":1,"guild":"1"}', CONN, IDENTIFY], READY % ""),
]

# What is said of a line, by the name of its fault.
SAID = {
    "NotJson": "not JSON in UTF-8 without a byte order mark",
    "NoSuchStep": "no such step or edit, or a bot or guild line after another step",
    "Missing": "a field is missing, or its name is misspelt",
    "WrongType": "not an object, or a field of the wrong type or out of its range",
    "TooLong": "the line, the file, a token or the list of guilds is too long",
}
NO_LIFT = "lift takes one file, or - for standard input"
NO_SEED = "load takes one seed, a number below 2^64 in digits"
NO_SERVE = "serve takes a port, 1 to 65532, a number of workers, 1 to 4, of connections that each accepts, 1 to 1000000, and 1 to 12 files"
NO_CLIENT = ("client takes a URL that begins with ws://, of at most 200 bytes, a token, of 1 to 100 bytes, a number of intents, "
             "and of dispatches, 1 to 1000000")
# What was wrong, the words, the status and the line on standard error.
WORDS = [
    ("no word", [], 2, "no command"),
    ("no file", ["run"], 2, "run takes one file, or - for standard input"),
    ("two files", ["run", "a", "b"], 2, "run takes one file, or - for standard input"),
    ("an option", ["run", "-v"], 2, "run takes one file, or - for standard input"),
    ("a file alone", ["examples/first.jsonl"], 2, "no command examples/first.jsonl"),
    ("another word", ["play", "examples/first.jsonl"], 2, "no command play"),
    ("a word in capitals", ["RUN", "examples/first.jsonl"], 2, "no command RUN"),
    ("help", ["--help"], 2, "no command --help"),
    ("an empty word", [""], 2, 'no command ""'),
    ("a word with a line feed", ["a\nb"], 2, 'no command "a\\nb"'),
    ("no files to serve", ["serve", "8080", "4", "1"], 2, NO_SERVE),
    ("port 0", ["serve", "0", "4", "1", "a"], 2, NO_SERVE),
    ("a port after the last", ["serve", "65533", "4", "1", "a"], 2, NO_SERVE),
    ("five workers", ["serve", "8080", "5", "1", "a"], 2, NO_SERVE),
    ("no connection to accept", ["serve", "8080", "4", "0", "a"], 2, NO_SERVE),
    ("thirteen files", ["serve", "8080", "4", "1", *"abcdefghijklm"], 2, NO_SERVE),
    ("no count of dispatches", ["client", "ws://a", "t", "1"], 2, NO_CLIENT),
    ("a fifth word of client", ["client", "ws://a", "t", "1", "1", "1"], 2, NO_CLIENT),
    ("a URL without ws://", ["client", "127.0.0.1:8080", "t", "1", "1"], 2, NO_CLIENT),
    ("a URL with TLS", ["client", "wss://a", "t", "1", "1"], 2, NO_CLIENT),
    ("a URL of 201 bytes", ["client", "ws://" + "a" * 196, "t", "1", "1"], 2, NO_CLIENT),
    ("an empty token", ["client", "ws://a", "", "1", "1"], 2, NO_CLIENT),
    ("a dash for a token", ["client", "ws://a", "-", "1", "1"], 2, NO_CLIENT),
    ("a token of 101 bytes", ["client", "ws://a", "t" * 101, "1", "1"], 2, NO_CLIENT),
    ("an intent that is none", ["client", "ws://a", "t", "131072", "1"], 2, NO_CLIENT),
    ("an intent by name", ["client", "ws://a", "t", "GUILDS", "1"], 2, NO_CLIENT),
    ("a count of 0", ["client", "ws://a", "t", "1", "0"], 2, NO_CLIENT),
    ("a count of 1000001", ["client", "ws://a", "t", "1", "1000001"], 2, NO_CLIENT),
    ("no seed", ["load"], 2, NO_SEED),
    ("two seeds", ["load", "1", "2"], 2, NO_SEED),
    ("a word for a seed", ["load", "seven"], 2, NO_SEED),
    ("a negative seed", ["load", "-1"], 2, NO_SEED),
    ("a seed with a plus", ["load", "+1"], 2, NO_SEED),
    ("a seed in hexadecimal", ["load", "0x7"], 2, NO_SEED),
    ("a seed of 2^64", ["load", "18446744073709551616"], 2, NO_SEED),
    ("no file to lift", ["lift"], 2, NO_LIFT),
    ("two files to lift", ["lift", "a", "b"], 2, NO_LIFT),
    ("an option of lift", ["lift", "-v"], 2, NO_LIFT),
    ("a dash before the words", ["--", "load"], 2, "no command --"),
    ("a word that is not UTF-8", [b"run", b"a\xff"], 2, "a word is not UTF-8"),
    ("a file that does not exist", ["run", "nosuch.jsonl"], 3, "cannot read nosuch.jsonl"),
    ("a name with a line feed", ["run", "no\nsuch"], 3, 'cannot read "no\\nsuch"'),
    ("an empty name", ["run", ""], 3, 'cannot read ""'),
    ("a folder", ["run", "examples"], 3, "cannot read examples"),
]
PAGES = {2: "README.md", 3: "docs/TRANSCRIPT.md", 4: "docs/TRANSCRIPT.md", 5: "docs/STEPS.md", 6: "docs/TRANSCRIPT.md"}
tried, failures = [], []


def compare(what, wanted, found):
    tried.append(what)
    if sys.argv[1:] == ["say"]:
        print(what, *(str(part).strip() or "nothing" for part in found), sep=" | ")
    if wanted != found:
        failures.append(f"mistakes: {what}: wanted {wanted}, found {found}")


def said(status, text, page=None):
    return "" if status == 0 else f"gate: {text} (status {status}; see {page or PAGES[status]})\n"


def try_lines(gate, folder):
    path = os.path.join(folder, "steps.jsonl")
    for what, lines, last in LINES:
        content = lines if isinstance(lines, bytes) else "".join(line + "\n" for line in lines).encode()
        with open(path, "wb") as file:
            file.write(content)
        run = subprocess.run([gate, "run", path], capture_output=True, timeout=60)
        printed = run.stdout.decode().split("\n")
        stops = last.split(" ") if last.startswith("stop line ") else None
        status, text = (5, f"line {stops[2]} of {path}: {SAID[stops[4]]}") if stops else (0, "")
        compare(what, (status, last, said(status, text)), (run.returncode, printed[-2] if printed[1:] else "", run.stderr.decode()))


def try_words(gate):
    for what, words, status, text in WORDS:
        run = subprocess.run([gate, *words], capture_output=True, timeout=60)
        printed = USAGE + "\n" if status == 2 else ""
        compare(what, (status, printed, said(status, text)), (run.returncode, run.stdout.decode(), run.stderr.decode()))


def try_serve(gate, folder):
    """A file of serve that does not exist, a port that another program has, a line that is no step, and one that is none of a script."""
    run = subprocess.run([gate, "serve", "8080", "1", "1", "nosuch.jsonl"], capture_output=True, timeout=60)
    told = said(3, "a file of serve 8080 cannot be read", "docs/SERVE.md")
    compare("a file of serve that does not exist", (3, "", told), (run.returncode, run.stdout.decode(), run.stderr.decode()))
    with socket.create_server(("127.0.0.1", 0)) as door:
        port = str(door.getsockname()[1])
        run = subprocess.run([gate, "serve", port, "1", "1", "examples/clients/edits.jsonl"], capture_output=True, timeout=60)
        told = said(7, f"a port of serve {port} cannot be listened on, or its door failed", "docs/SERVE.md")
        compare("a port that another program has", (7, "", told), (run.returncode, run.stdout.decode(), run.stderr.decode()))
    path = os.path.join(folder, "script.jsonl")
    for what, line, number, name in (("a comment in a script", "# edits", 1, "NotJson"), ("a look in a script", LOOK, 2, "NoSuchStep")):
        with open(path, "w") as file:
            file.writelines(text + "\n" for text in [*OPENED, line])
        run = subprocess.Popen([gate, "serve", port, "1", "1", path], stdout=subprocess.PIPE, stderr=subprocess.PIPE)
        first = run.stdout.readline().decode()
        socket.create_connection(("127.0.0.1", int(port))).close()
        printed, complaint = (text.decode() for text in run.communicate(timeout=60))
        wanted = (5, f"worker 0 ws://127.0.0.1:{port}\nstop file 1 line 4 {number} {name}\n", said(5, f"line 4 of {path}: {SAID[name]}"))
        compare(what, wanted, (run.returncode, first + printed, complaint))


def try_outside(gate):
    """Standard input, an empty file, a full disk, a pipe that is closed, and a standard error that takes nothing."""
    text = "cannot write the transcript of examples/first.jsonl"
    run = subprocess.run([gate, "run", "-"], input=b"no\n", capture_output=True, timeout=60)
    compare("standard input", (5, said(5, "line 1 of standard input: " + SAID["NotJson"])), (run.returncode, run.stderr.decode()))
    run = subprocess.run([gate, "run", "/dev/null"], capture_output=True, timeout=60)
    compare("an empty file", (0, b"", b""), (run.returncode, run.stdout, run.stderr))
    with open("/dev/full", "wb") as full:
        run = subprocess.run([gate, "run", "examples/first.jsonl"], stdout=full, stderr=subprocess.PIPE, timeout=60)
        compare("a full disk", (4, said(4, text)), (run.returncode, run.stderr.decode()))
        run = subprocess.run([gate, "run", "nosuch.jsonl"], stdout=subprocess.PIPE, stderr=full, timeout=60)
        compare("a full standard error", (3, b""), (run.returncode, run.stdout))
    reader, writer = os.pipe()
    os.close(reader)
    run = subprocess.run([gate, "run", "examples/first.jsonl"], stdout=writer, stderr=subprocess.PIPE, timeout=60)
    os.close(writer)
    compare("a closed pipe", (4, said(4, text)), (run.returncode, run.stderr.decode()))


def try_little_memory(gate, folder):
    path = os.path.join(folder, "large.jsonl")
    channel = edit(CHANNEL % '"type":0')
    with open(path, "w") as file:
        file.writelines(line + "\n" for line in [*OPENED, channel, *(edit(MESSAGE % (number, "x" * 2000, 0)) for number in range(100, 5000))])
    limit = lambda: resource.setrlimit(resource.RLIMIT_AS, (10 << 20, 10 << 20))
    run = subprocess.run([gate, "run", path], capture_output=True, timeout=60, preexec_fn=limit)
    compare("little memory", (6, b"", said(6, f"out of memory while playing {path}")), (run.returncode, run.stdout, run.stderr.decode()))


def try_lift(gate, folder):
    """Lifts that end otherwise than with 0, each with what is lifted before."""
    path, page = os.path.join(folder, "lifted.jsonl"), "docs/STEPS.md"
    guild = '{"id":"1","step":"guild"}\n'
    # The name of a bot of version 1 that fills its line, which has no room for version 2.
    full = BOT.replace("bee", "b" * (65536 - len(BOT) + 3))
    for what, lines, printed, name in (
            ("a comment to lift", [GUILD, "", "# bots"], guild + "\nstop line 3 1 NotJson\n", "NotJson"),
            ("a line without room for its newest version", [GUILD, full], guild + "stop line 2 5 TooLong\n", "TooLong")):
        with open(path, "w") as file:
            file.writelines(line + "\n" for line in lines)
        run = subprocess.run([gate, "lift", path], capture_output=True, timeout=60)
        wanted = (5, printed, said(5, f"line {len(lines)} of {path}: {SAID[name]}"))
        compare(what, wanted, (run.returncode, run.stdout.decode(), run.stderr.decode()))
    run = subprocess.run([gate, "run", path], capture_output=True, timeout=60)
    compare("the same line, played", (0, b"", b""), (run.returncode, run.stdout, run.stderr))
    run = subprocess.run([gate, "lift", "nosuch.jsonl"], capture_output=True, timeout=60)
    compare("a file to lift that does not exist", (3, "", said(3, "cannot read nosuch.jsonl", page)), (run.returncode, run.stdout.decode(), run.stderr.decode()))
    run = subprocess.run([gate, "lift", "-"], input=GUILD.encode(), capture_output=True, timeout=60)
    compare("standard input to lift", (0, guild, ""), (run.returncode, run.stdout.decode(), run.stderr.decode()))
    with open("/dev/full", "wb") as full_disk:
        run = subprocess.run([gate, "lift", "examples/first.jsonl"], stdout=full_disk, stderr=subprocess.PIPE, timeout=60)
        compare("a lift to a full disk", (4, said(4, "cannot write the lines of examples/first.jsonl", page)), (run.returncode, run.stderr.decode()))


def try_load(gate):
    """A load, whose summary is told by its seed, and a full disk."""
    guild = "guild %d entries 1001 accepted 1001 members 8 roles 5 channels 4 active 61 archived 62"
    for words, seed in (("7", 7), ("007", 7), ("18446744073709551615", 2 ** 64 - 1)):
        lines = [f"load {seed}", *(guild % (number << 22) for number in range(1, 9)), *(f"session {number} agree 8" for number in range(12)), "done 8008"]
        run = subprocess.run([gate, "load", words], capture_output=True, timeout=120)
        compare(f"load {words}", (0, lines, ""), (run.returncode, run.stdout.decode().splitlines(), run.stderr.decode()))
    with open("/dev/full", "wb") as full:
        run = subprocess.run([gate, "load", "7"], stdout=full, stderr=subprocess.PIPE, timeout=120)
        compare("a load to a full disk", (4, said(4, "cannot write the summary of load 7", "docs/LOAD.md")), (run.returncode, run.stderr.decode()))


def without_threads():
    """No thread starts in a process of a user that has as many as it may have; the first user of all may have any number."""
    if os.geteuid() == 0:
        os.setgid(65534)
        os.setuid(65534)
    resource.setrlimit(resource.RLIMIT_NPROC, (1, 1))


def try_threads(gate, folder):
    """A load and a run of serve whose parts cannot start."""
    open_folder = os.path.join(folder, "open")
    os.mkdir(open_folder)
    program = shutil.copy(gate, os.path.join(open_folder, "gate"))
    script = shutil.copy("examples/clients/edits.jsonl", open_folder)
    for path in (folder, open_folder, program, script):
        os.chmod(path, 0o755)
    with socket.create_server(("127.0.0.1", 0)) as door:
        port = str(door.getsockname()[1])
    for words, what, page in ((["load", "7"], "a thread of load 7 did not start", "docs/LOAD.md"),
                              (["serve", port, "1", "1", script], f"a thread of serve {port} did not start", "docs/SERVE.md")):
        try:
            run = subprocess.run([program, *words], capture_output=True, timeout=60, preexec_fn=without_threads)
        except subprocess.SubprocessError as fault:
            if isinstance(fault, subprocess.TimeoutExpired):
                raise
            print(f"mistakes: {what}: not tried, since no process can be had without threads: {fault}")
            continue
        compare(what, (8, "", said(8, what, page)), (run.returncode, run.stdout.decode(), run.stderr.decode()))


def try_each_start(gate, folder):
    """A server of two actors, a script and a worker, whose threads do not start from one of the four on; a library makes it so."""
    if not shutil.which("gcc"):
        print("mistakes: each thread of serve: not tried: there is no gcc")
        return
    library = os.path.join(folder, "refused.so")
    subprocess.run(["gcc", "-O2", "-shared", "-fPIC", "-o", library, "bench/refused/refused.c", "-ldl"], check=True)
    for start in range(1, 5):
        port, env = str(free_port(1)), dict(os.environ, LD_PRELOAD=library, REFUSED_START=str(start), REFUSED_ON="1")
        told = said(8, f"a thread of serve {port} did not start", "docs/SERVE.md")
        run = subprocess.run([gate, "serve", port, "1", "1", "examples/clients/edits.jsonl"], capture_output=True, timeout=60, env=env)
        compare(f"start {start} of serve fails", (8, "", told), (run.returncode, run.stdout.decode(), run.stderr.decode()))


def answer_once(door, frame):
    """Answers the handshake of one WebSocket client, and sends it this frame."""
    peer, _ = door.accept()
    with peer:
        head = b""
        while b"\r\n\r\n" not in head:
            head += peer.recv(4096)
        key = re.search(rb"(?i)sec-websocket-key: *(\S+)", head)[1]
        accept = base64.b64encode(hashlib.sha1(key + b"258EAFA5-E914-47DA-95CA-C5AB0DC85B11").digest())
        peer.sendall(b"HTTP/1.1 101 Switching Protocols\r\nUpgrade: websocket\r\nConnection: Upgrade\r\nSec-WebSocket-Accept: " + accept + b"\r\n\r\n" + frame)
        while peer.recv(4096):
            pass


def try_client(gate):
    """A dispatch that cannot be written, a gateway that closes for good, one that sends what is no payload, and none."""
    door = socket.create_server(("127.0.0.1", 0))
    url = f"ws://127.0.0.1:{door.getsockname()[1]}"
    dispatch = b'{"d":{"id":"1","name":"hut","owner_id":"5"},"op":0,"s":1,"t":"GUILD_UPDATE"}'
    with open("/dev/full", "wb") as full:
        peer = threading.Thread(target=answer_once, args=(door, b"\x81" + bytes([len(dispatch)]) + dispatch), daemon=True)
        peer.start()
        run = subprocess.run([gate, "client", url, "t1", "1", "1"], stdout=full, stderr=subprocess.PIPE, timeout=60)
        compare("a client to a full disk", (4, said(4, f"cannot write the lines of client {url}", "docs/CLIENT.md")), (run.returncode, run.stderr.decode()))
    for what, frame, status, printed, text in (
            ("a close for good", b"\x88\x02\x0f\xa4", 10, "closed 4004\n", f"client {url} was closed with 4004"),
            ("a text that is no payload", b"\x81\x02{}", 11, "bad text\n", f"client {url} got a text that is no payload"),
            ("no gateway", None, 9, "", f"nine connections of client {url} failed, one after another, without a text between them")):
        peer = threading.Thread(target=answer_once, args=(door, frame), daemon=True)
        peer.start() if frame else door.close()
        run = subprocess.run([gate, "client", url, "t1", "1", "1"], capture_output=True, timeout=60)
        compare(what, (status, printed, said(status, text, "docs/CLIENT.md")), (run.returncode, run.stdout.decode(), run.stderr.decode()))


def try_files(files, folder):
    """What the program for files alone says: the same of a file, and of a command that it does not know where that is."""
    try_lines(files, folder)
    try_little_memory(files, folder)
    try_lift(files, folder)
    try_outside(files)
    for words in (["load", "7"], ["serve", "8080", "1", "1", "nosuch.jsonl"], ["client", "ws://127.0.0.1:1", "t1", "1", "1"]):
        run = subprocess.run([files, *words], capture_output=True, timeout=60)
        text = f"this program runs and lifts files; ./gate {words[0]} builds the whole program"
        compare(f"{words[0]}, to the program for files", (2, USAGE + "\n", said(2, text)), (run.returncode, run.stdout.decode(), run.stderr.decode()))


gate = rig.program("mistakes")
if not gate:
    sys.exit(0)
files = rig.program_for_files("mistakes")
with tempfile.TemporaryDirectory() as folder:
    if files:
        try_files(files, folder)
    try_lines(gate, folder)
    try_little_memory(gate, folder)
    try_serve(gate, folder)
    try_lift(gate, folder)
    try_threads(gate, folder)
    try_each_start(gate, folder)
try_words(gate)
try_outside(gate)
try_load(gate)
try_client(gate)
print(*failures, sep="\n", end="\n" if failures else "")
print(f"mistakes: {len(tried)} tried, {len(failures)} answered otherwise")
sys.exit(bool(failures))
