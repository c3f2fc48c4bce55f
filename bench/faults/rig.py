"""What the scripts for faults share: the program, loaded once and played as often as one likes with calls that fail, and the
reference that says what is right.

The program is the file that GATE names, or else one that was built after its sources changed last. The reference is the module
gate_oracle in the folder that ORACLE names; it is not asked if that is `none`, or nothing."""
import collections
import contextlib
import errno
import glob
import os
import re
import shutil
import signal
import struct
import subprocess
import sys
import tempfile
import threading

ROOT = os.path.dirname(os.path.dirname(os.path.dirname(os.path.abspath(__file__))))
ORACLE = os.environ.get("ORACLE") or "none"
BUILT = ("crates/gateway_main/out/gateway_main", "out/gate")
BUILT_FOR_FILES = ("crates/files_main/out/files_main", "out/gate-files")
STAGE = "e15"  # what the program has of the stages of the reference
MEMBERS = 5000  # the most members of a guild
REQUEST = struct.Struct("8I200s200s200s")
CALL = struct.Struct("iii")
Call = collections.namedtuple("Call", "letter asked answer")
Ran = collections.namedtuple("Ran", "status out err calls allocations")
# Of examples/worked: a session, one of which a channel is hidden, and one that is sent messages.
WORKED = ("first_session", "everyone_sees_a_channel_again", "contents_for_whom_they_are")
ANY, FAILS_WITH = 0, {"EIO": errno.EIO, "ENOSPC": errno.ENOSPC, "EINTR": errno.EINTR, "EAGAIN": errno.EAGAIN, "nothing": 0}


def is_program(path):
    return os.path.isfile(path) and os.access(path, os.X_OK)


def last_change():
    """When a source of the program changed last."""
    paths = [path for part in ("src", "specs", "proofs") for path in glob.glob(os.path.join(ROOT, f"crates/*/{part}/**/*.*"), recursive=True)]
    return max(map(os.path.getmtime, [*paths, os.path.join(ROOT, "crates.txt"), os.path.join(ROOT, "HANDLES")]))


def program_at_hand(script, variable, paths):
    """The program that a variable of the environment names, which has to be one, or else a built one that is newer than its sources."""
    named = os.environ.get(variable)
    if named:
        return os.path.abspath(named) if is_program(named) else sys.exit(f"{script}: {variable} names no program: {named}")
    built = [path for path in (os.path.join(ROOT, path) for path in paths) if is_program(path)]
    return next((path for path in built if os.path.getmtime(path) > last_change()), None)


def program(script):
    """The program of GATE, or a built one; if there is none, the script says that it plays nothing."""
    found = program_at_hand(script, "GATE", BUILT)
    if not found:
        print(f"{script}: no built program at hand that is newer than its sources: nothing was played", flush=True)
    return found


def program_for_files(script):
    """The program for files alone, of GATE_FILES or a built one, if there is one."""
    return program_at_hand(script, "GATE_FILES", BUILT_FOR_FILES)


def needed_program():
    """The program, without which a script has nothing to do."""
    return program(os.path.basename(sys.argv[0])) or sys.exit("run ./gate --build, or name the program by GATE")


def oracle():
    """The reference, or None if it is not asked."""
    if ORACLE == "none":
        return None
    if not os.path.isfile(os.path.join(ORACLE, "gate_oracle.py")):
        sys.exit(f"ORACLE names no folder with gate_oracle.py: {ORACLE}")
    sys.dont_write_bytecode = True
    sys.path.insert(0, ORACLE)
    import gate_oracle
    return gate_oracle


def needed_oracle():
    return oracle() or sys.exit("no reference at hand: name the folder of gate_oracle.py by ORACLE")


def by_reference(found, data):
    """The status and the transcript of these lines by the reference, which is at hand."""
    status, lines = found.run_bytes(data, STAGE)
    return status, "".join(line + "\n" for line in lines).encode()


def said_of_lines():
    """What the program says of a line on standard error, by the name of its fault."""
    with open(os.path.join(ROOT, "crates/file_commands/src/complaint.rt"), encoding="utf-8") as file:
        return dict(re.findall(r'LineFault::(\w+) =>\s*\{?\s*"([^"]*)"', file.read()))


SAID = said_of_lines()


def complaint(status, file, printed=b""):
    """What standard error has to say at the end of a play of that file: one line, with the status in it, or nothing."""
    if status == 0:
        return b""
    if status == 5:
        _, _, line, _, name = printed.decode().split("\n")[-2].split(" ")
        return f"gate: line {line} of {file}: {SAID[name]} (status 5; see docs/STEPS.md)\n".encode()
    text = {3: f"cannot read {file}", 4: f"cannot write the transcript of {file}", 6: f"out of memory while playing {file}"}[status]
    return f"gate: {text} (status {status}; see docs/TRANSCRIPT.md)\n".encode()


def examples():
    """The step files of examples/ and three of examples/worked, by their names."""
    paths = sorted(glob.glob(os.path.join(ROOT, "examples/*.jsonl"))) + [os.path.join(ROOT, f"examples/worked/{name}.jsonl") for name in WORKED]
    for path in paths:
        with open(path, "rb") as file:
            yield os.path.basename(path), file.read()


class Room:
    """A folder for what is played, in memory if there is such a place, and the libraries that let calls fail and refuse allocations.
    Several processes may share one, by its folder."""

    def __init__(self, folder=None, sources=("bench/faults/calls.c", "bench/refused/refused.c")):
        self.folder = folder or tempfile.mkdtemp(prefix="faults-", dir="/dev/shm" if os.access("/dev/shm", os.W_OK) else None)
        self.libraries = []
        for source in sources:
            self.libraries.append(self.path(os.path.basename(source)[:-2] + ".so"))
            if not folder:
                words = ["gcc", "-O2", "-shared", "-fPIC", "-o", self.libraries[-1], os.path.join(ROOT, source), "-ldl"]
                subprocess.run(words, check=True)

    def path(self, name):
        return os.path.join(self.folder, name)

    def write(self, name, data):
        with open(self.path(name), "wb") as file:
            file.write(data)
        return self.path(name)

    def __enter__(self):
        return self

    def __exit__(self, *_):
        shutil.rmtree(self.folder, ignore_errors=True)


class Player:
    """`run FILE`, or `run -`, loaded once. Several may be in one room, each of another name. One that `refuses` counts allocations, and
    can refuse them."""

    def __init__(self, room, name="one", standard=False, gate=None, refuses=False):
        self.room, self.standard, self.mark = room, standard, name
        self.file = room.path(name + ".jsonl")
        self.shown = "standard input" if standard else self.file
        requests, answers = os.pipe(), os.pipe()
        env = dict(os.environ, LD_PRELOAD=":".join(room.libraries[:1 + refuses]), FAULTS_FILE=self.file)
        # Of a build with checks of memory: that it looks for no leaks as it ends, which takes long.
        env["ASAN_OPTIONS"] = "detect_leaks=0:" + env.get("ASAN_OPTIONS", "")
        words = [gate or needed_program(), "run", "-" if standard else self.file]

        def place():
            os.setpgid(0, 0)
            held = os.dup(requests[0]), os.dup(answers[1])
            os.dup2(held[0], 198)
            os.dup2(held[1], 199)

        self.process = subprocess.Popen(words, env=env, stdin=subprocess.DEVNULL, preexec_fn=place, close_fds=False, cwd=ROOT)
        os.close(requests[0])
        os.close(answers[1])
        os.set_inheritable(requests[1], False)
        self.requests, self.answers = requests[1], os.fdopen(answers[0], "rb")

    def play(self, data=None, at=0, on=False, reason="EIO", read_most=ANY, write_most=ANY, seconds=60, refused=0):
        """Plays the file, with these bytes if they are given. The call `at` fails, or the allocation `refused` is refused, with all after
        it if `on`."""
        if data is not None:
            self.room.write(self.mark + ".jsonl", data)
        out, err = self.room.path(self.mark + ".out"), self.room.path(self.mark + ".err")
        given = self.file if self.standard else "/dev/null"
        numbers = at, int(on), FAILS_WITH[reason], read_most, write_most, seconds, refused, int(on)
        os.write(self.requests, REQUEST.pack(*numbers, *(path.encode() for path in (given, out, err))))
        head = self.answers.read(12)
        if len(head) < 12:
            raise OSError("the program did not begin")
        status, allocations, count = struct.unpack("iII", head)
        calls = [Call(chr(letter), asked, answer) for letter, asked, answer in CALL.iter_unpack(self.answers.read(count * CALL.size))]
        with open(out, "rb") as first, open(err, "rb") as second:
            printed, said = first.read(), second.read()
        status = -os.WTERMSIG(status) if os.WIFSIGNALED(status) else os.WEXITSTATUS(status)
        return Ran(status, printed, said, calls, allocations)

    def end(self):
        os.close(self.requests)
        try:
            self.process.wait(10)
        except subprocess.TimeoutExpired:
            os.kill(self.process.pid, signal.SIGKILL)
            self.process.wait()


@contextlib.contextmanager
def within(seconds, process):
    """Kills a process that has not ended what is done with it in so many seconds."""
    clock = threading.Timer(seconds, process.kill)
    clock.daemon = True
    clock.start()
    try:
        yield
    finally:
        clock.cancel()


def first_difference(wanted, found):
    """The first line in which two transcripts differ, of both."""
    ours, theirs = wanted.split(b"\n"), found.split(b"\n")
    place = next((place for place, (one, other) in enumerate(zip(ours, theirs)) if one != other), min(len(ours), len(theirs)))
    shown = [rows[place][:300].decode("utf-8", "replace") if place < len(rows) else "(the end)" for rows in (ours, theirs)]
    return f"line {place + 1}: wanted {shown[0]}\n  found {shown[1]}"


def against_reference(found, data, ran):
    """What the reference finds wrong with the play of these lines, as a list of at most one; nothing if it is not at hand."""
    wanted = by_reference(found, data) if found else (ran.status, ran.out)
    if wanted == (ran.status, ran.out):
        return []
    return [f"not as the reference, of status {wanted[0]}: {first_difference(wanted[1], ran.out)}"]


def not_asked(found):
    """What a script says at its end if there was no reference."""
    return "" if found else "; the reference was not asked"


def end(told, tried, bad, left, found):
    """Says what came of the files that were tried, and which were left, and ends the script: with 0 if some were tried and all were right."""
    print(f"{told}, {bad} not as they should be" + (f"; left when the time was up: {', '.join(left)}" if left else "")
          + not_asked(found))
    sys.exit(bad > 0 or not tried)


def begin(main, about, most):
    """Runs a script with its words, at most so many, and with the number after `--count`, or says what it is about."""
    words, named = sys.argv[1:], {}
    if words[:1] == ["--help"] or words[-1:] == ["--count"]:
        sys.exit(about)
    if "--count" in words:
        at = words.index("--count")
        named["count"] = int(words[at + 1])
        del words[at:at + 2]
    main(*words[:most], **named)
