"""Lifts each step file of examples/ and examples/worked, plays what was written, and compares its transcript with that of the file, and its
lines with those of the file: each says the same, and a bot line also its version. A lifted file is lifted to itself. Of a file with a line
that is refused only what comes before it is lifted. Without a built program nothing is lifted."""
import glob
import json
import os
import subprocess
import sys

os.chdir(os.path.join(os.path.dirname(os.path.abspath(__file__)), "../.."))
sys.path.insert(0, "bench/faults")
import rig

SECONDS = 60
NEWEST = {"v": 2, "ring_items": 1024, "ring_bytes": 4194304}
tried, failures = [], []


def compare(what, wanted, found):
    tried.append(what)
    if wanted != found:
        failures.append(f"lifted: {what}: wanted {wanted!r:.400}, found {found!r:.400}")


def call(gate, word, content):
    run = subprocess.run([gate, word, "-"], input=content, capture_output=True, timeout=SECONDS)
    return run.returncode, run.stdout


def newest(line):
    """What a line says in its newest version, with ids and permissions as strings, and without what no step has."""
    said = json.loads(line)
    return {**NEWEST, **said, "v": 2} if said["step"] == "bot" else said


def plain(value):
    """A value, whose numbers may as well be strings, also with zeros before them."""
    if isinstance(value, list):
        return [plain(one) for one in value]
    return str(int(value)) if str(value).isdecimal() and str(value).isascii() else str(value)


def is_lifted(line, old):
    """Whether the line is compact, with its keys in order, and says no other thing than the old one."""
    said, before = json.loads(line), newest(old)
    compact = json.dumps(said, separators=(",", ":"), sort_keys=True, ensure_ascii=False).encode() == line
    return compact and all(plain(before.get(key)) == plain(value) for key, value in said.items())


def lift(gate, path):
    with open(path, "rb") as file:
        content = file.read()
    played = call(gate, "run", content)
    status, text = call(gate, "lift", content)
    compare(f"{path}: the status", played[0], status)
    if status:
        compare(f"{path}: the last line", played[1].splitlines()[-1], text.splitlines()[-1])
        return
    compare(f"{path}: the transcript", played, call(gate, "run", text))
    compare(f"{path}: lifted twice", (0, text), call(gate, "lift", text))
    lines, old = text.split(b"\n")[:-1], content.splitlines()
    compare(f"{path}: how many lines", len(old), len(lines))
    other = [number for number, (line, before) in enumerate(zip(lines, old), 1) if not (is_lifted(line, before) if before.strip() else line == b"")]
    compare(f"{path}: lines that say something else", [], other)


gate = rig.program("lifted")
if not gate:
    sys.exit(0)
for path in sorted(glob.glob("examples/*.jsonl") + glob.glob("examples/worked/*.jsonl")):
    for program in filter(None, (gate, rig.program_for_files("lifted"))):
        lift(program, path)
with open("examples/first.jsonl", "rb") as file:
    first = call(gate, "lift", file.read())[1].decode().split("\n")[0]
with open("docs/STEPS.md", encoding="utf-8") as page:
    compare("the line of docs/STEPS.md", True, first + "\n" in page.read())
print(*failures, sep="\n", end="\n" if failures else "")
print(f"lifted: {len(tried)} tried, {len(failures)} answered otherwise")
sys.exit(bool(failures))
