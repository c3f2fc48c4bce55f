"""Plays each step file of examples/worked, and compares its transcript, byte by byte, its status and its line on standard error with
those that are wanted, also by the program for files alone; then the first session through a pipe whose reader leaves before the second write, which then has the Hello line
alone. Without a built program nothing is played.

Where the reference is at hand (bench/faults/rig.py), it folds what each session was sent and has to find the projection of the record
after each entry, in each transcript, and to find that a transcript with a garbled dispatch is wrong."""
import contextlib
import glob
import os
import subprocess
import sys

os.chdir(os.path.join(os.path.dirname(os.path.abspath(__file__)), "../.."))
sys.path.insert(0, "bench/faults")
import rig

FOLDER = "examples/worked"
SECONDS = 60
tried, failures = [], []


def compare(what, wanted, found):
    tried.append(what)
    if wanted != found:
        failures.append(f"worked: {what}: wanted {wanted}, found {found}")


def read(name):
    with open(f"{FOLDER}/{name}", "rb") as file:
        return file.read()


def names():
    """The names of the step files and of the transcripts, each of which has to have the other."""
    return sorted({os.path.splitext(os.path.basename(path))[0] for path in glob.glob(f"{FOLDER}/*.*")})


def play_all(gate, program):
    for name in names():
        path, wanted = f"{FOLDER}/{name}.jsonl", read(f"{name}.out")
        run = subprocess.run([gate, "run", path], capture_output=True, timeout=SECONDS)
        compare(f"{name}{program}", "the same", "the same" if run.stdout == wanted else rig.first_difference(wanted, run.stdout))
        status = 5 if wanted.splitlines()[-1].startswith(b"stop line ") else 0
        compare(f"{name}{program}: the end", (status, rig.complaint(status, path, wanted)), (run.returncode, run.stderr))


def lose_the_second_write(gate):
    """The first write of the first session comes through, and its reader leaves before the second one."""
    lines = read("first_session.jsonl").splitlines(True)
    opened = next(place for place, line in enumerate(lines) if b'"step":"open"' in line) + 1
    pipes = {name: subprocess.PIPE for name in ("stdin", "stdout", "stderr")}
    with subprocess.Popen([gate, "run", "-"], **pipes) as run, rig.within(SECONDS, run):
        run.stdin.write(b"".join(lines[:opened]))
        run.stdin.flush()
        shown = run.stdout.readline()
        run.stdout.close()
        # A program that has ended reads no more.
        with contextlib.suppress(BrokenPipeError):
            run.stdin.write(b"".join(lines[opened:]))
            run.stdin.close()
        said = run.stderr.read()
        status = run.wait()
    hello = read("first_session.out").splitlines(True)[0]
    compare("the second write fails", (4, hello, rig.complaint(4, "standard input")), (status, shown, said))


def verify_all(oracle):
    """What the reference finds wrong of each transcript: nothing, but of one in which a dispatch is garbled."""
    for name in names():
        compare(f"{name}: what is held", [], oracle.verify_bytes(read(f"{name}.jsonl"), read(f"{name}.out").decode(), rig.STAGE)[:3])
    garbled = read("first_session.out").decode().replace('"name":"hut","owner_id":"5"', '"name":"hut"')
    compare("a garbled dispatch is found", True, bool(oracle.verify_bytes(read("first_session.jsonl"), garbled, rig.STAGE)))


gate = rig.program("worked")
if not gate:
    sys.exit(0)
play_all(gate, "")
lose_the_second_write(gate)
files = rig.program_for_files("worked")
if files:
    play_all(files, " by the program for files")
oracle = rig.oracle()
if oracle:
    verify_all(oracle)
print(*failures, sep="\n", end="\n" if failures else "")
print(f"worked: {len(tried)} compared, {len(failures)} otherwise" + rig.not_asked(oracle))
sys.exit(bool(failures))
