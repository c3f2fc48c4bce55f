"""Compares the documents, the READMEs of crates and examples/ with the sources, and plays the examples."""
import collections
import functools
import glob
import itertools
import json
import os
import re
import shutil
import subprocess
import sys

os.chdir(os.path.join(os.path.dirname(os.path.abspath(__file__)), "../.."))
sys.path.insert(0, "bench/faults")
import rig

STEPS, TRANSCRIPT, PAYLOADS, LOAD = "docs/STEPS.md", "docs/TRANSCRIPT.md", "docs/PAYLOADS.md", "docs/LOAD.md"
SERVE, CLIENT, CLAIMS, README = "docs/SERVE.md", "docs/CLIENT.md", "docs/CLAIMS.md", "README.md"
# The pages that bot authors read.
FOR_AUTHORS = [README, STEPS, TRANSCRIPT, PAYLOADS, "docs/COOKBOOK.md", "docs/PRIVACY.md", "examples/README.md", SERVE, CLIENT, "docs/CLIENTS.md", LOAD]
MOST_WORDS = 1200
# The tables of exit statuses, by their pages and heads.
STATUSES = [(TRANSCRIPT, "status"), (LOAD, "status of a load"), (SERVE, "status of a server"), (CLIENT, "status of a client"), (STEPS, "status of a lift")]
# What the page calls a kind of field, by the name of the function that reads it.
KINDS = {"moment": "time", "kind": "channel type", "thread_kind": "thread type", "overwrite_kind": "overwrite type", "parts": "count"}
# Which objects stand under these keys, and are these dispatches.
OBJECTS = {"role": "role roles", "channel": "channels CHANNEL_CREATE CHANNEL_UPDATE CHANNEL_DELETE", "overwrite": "permission_overwrites",
           "thread": "threads THREAD_CREATE THREAD_UPDATE", "thread member": "member added_members", "user": "user author mentions",
           "member": "members GUILD_MEMBER_ADD GUILD_MEMBER_UPDATE", "voice state": "voice_states VOICE_STATE_UPDATE", "emoji": "emoji",
           "presence": "presences PRESENCE_UPDATE", "message": "MESSAGE_CREATE MESSAGE_UPDATE",
           "application": "application", "thread_metadata": "thread_metadata"}
OBJECT_OF = {name: kind for kind, names in OBJECTS.items() for name in names.split()}
failures, counts = [], collections.Counter()

@functools.lru_cache(maxsize=None)
def text_of(*patterns):
    """The text of these files, one after another."""
    paths = [path for pattern in patterns for path in sorted(glob.glob(pattern, recursive=True))]
    return "".join(open(path, encoding="utf-8", newline="\n").read() for path in paths)

def compare(what, path, line, page, source):
    counts[what] += len(page) if isinstance(page, (list, set)) else 1
    if page != source:
        page, source = (page - source, source - page) if isinstance(page, set) else (page, source)
        failures.append(f"{path}:{line}: {what}: the page has {page}, the sources have {source}")

def compare_rows(what, path, page, source):
    """Compares values, each with its line, with those of the sources, one by one."""
    for found, wanted in itertools.zip_longest(page, source):
        compare(what, path, found[0] if found else page[-1][0], found and found[1], wanted)

def rows(path, head):
    """The rows of the page's tables whose first column has this head, each with the number of its line."""
    inside = False
    for number, line in enumerate(text_of(path).split("\n"), 1):
        cells = [cell.strip() for cell in line.strip("|").split("|")] if line.startswith("|") else [""]
        inside = cells[0] == head or inside and line.startswith("|")
        if inside and cells[0] != head and cells[0] != "---":
            yield number, [cells[0].strip("`"), *cells[1:]]

def squeezed(items):
    return [item for item, _ in itertools.groupby(items)]

def functions(pattern):
    """The functions of these sources, by name, without their heads and clauses."""
    found = re.findall(r"^( *)(?:pub )?fn (\w+)\b[^\n]*\n(.*?)^\1\}", text_of(pattern), re.M | re.S)
    return {name: re.sub(r"(?m)^\s*(ensures|requires)\b.*$", "", body) for _, name, body in reversed(found)}

def constants(crate):
    found = re.findall(r"const (\w+): u\w+ =\s*([\d_]+);", text_of(f"crates/{crate}/src/**/*.rt"))
    return {name: int(value.replace("_", "")) for name, value in found}

def fields(known, name):
    """The fields that a reader reads, in order, with their kinds."""
    for it in re.finditer(r"(\w+)\((?:alloc, )?object(?:, \"(\w+)\")?", known.get(name, "")):
        nullable, kind = re.match(r"(nullable_)?(\w+?)(?:_at)?$", it[1]).groups()
        if it[1] == "number_below":
            yield it[2], "milliseconds"
        elif it[1].endswith("_at"):
            yield it[2] or kind.replace("connection", "conn"), KINDS.get(kind, kind) + (" or null" if nullable else "")
        else:
            yield from fields(known, it[1])

def edit_readers():
    """What is read for each edit, by its name."""
    arms = re.findall(r"EditName::(\w+) => (.*?)(?=\w+EditName::|\n    \}\))", text_of("crates/edit_fields/src/edits/*.rt"), re.S)
    return {re.sub(r"(?<!^)(?=[A-Z])", "_", name).lower(): arm for name, arm in arms}

def verdicts(name, own, crate, rules, limits):
    """The verdicts of a function of tests in the order of its text, with their limits."""
    answer = []
    for it in re.finditer(r"Verdict::(\w+)|limits::(\w+)|(rules::)?\b(\w+)\(", own.get(name) or crate[name]):
        if it[1]:
            answer.append(it[1])
        elif it[2]:
            answer[-1] += f" {limits[it[2]]}"
        elif it[3]:
            answer += verdicts(it[4], rules, rules, rules, limits)
        elif it[4] in own or it[4] in crate:
            answer += verdicts(it[4], own if it[4] in own else crate, crate, rules, limits)
    return squeezed(answer)

def verdicts_of(edit):
    """The verdicts of an edit, but for those that every edit has in a guild that is not open or in an outage."""
    file = "guild" if edit.startswith("guild_") else "reaction" if edit.startswith("reaction_") else edit
    check = "check" if file != "guild" else "in_service" if edit in ("guild_outage", "guild_private") else "check_" + re.sub("^guild_", "", edit)
    paths = [path for path in glob.glob(f"crates/*/src/{file}.rt") if "fn check" in text_of(path)]
    path = (paths or ["crates/edit_apply/src/guild.rt"])[0]
    rules, crate = functions("crates/guild_model/src/rules.rt"), functions(f"{os.path.dirname(path)}/**/*.rt")
    found = verdicts(check, functions(path), crate, rules, constants("guild_model"))
    return found[2:] if found[:2] == ["NotOpen", "Unavailable"] else found

def dispatches_by_edit():
    """What each edit of examples/every_edit sends: a heartbeat follows its look, and the answer to it ends what was sent."""
    steps = map(json.loads, text_of("examples/every_edit.jsonl").splitlines())
    sent = collections.defaultdict(list)
    for edit, part in zip((step for step in steps if step["step"] == "edit"), text_of("examples/every_edit.out").split('"op":11')):
        sent[edit["do"]].append(squeezed(name for name in re.findall(r'"t":"(\w+)"\}$', part, re.M) if name != "READY"))
    return sent

def compare_steps_and_edits():
    for head, named in (("step", r"StepName::\w+ => \"(\w+)\""), ("edit", r"EditName::\w+ => \"(\w+)\"")):
        compare("names", STEPS, 1, {name for _, (name, *_) in rows(STEPS, head)}, set(re.findall(named, text_of("crates/edit_fields/src/names.rt", "crates/edit_text/src/step_name.rt"))))
    edits, sent = edit_readers(), dispatches_by_edit()
    known = {**functions("crates/edit_fields/src/edits/*.rt"), **functions("crates/edit_text/src/steps.rt"), **functions("crates/edit_text/src/ring_size.rt"), **edits}
    for line, (name, cell, *_) in [*rows(STEPS, "step"), *rows(STEPS, "edit")]:
        page = [re.match(r"`(\w+)` (.+)", field).groups() for field in cell.split(", ") if field.startswith("`")]
        reader = name if name in edits else "edit_line_from" if name == "edit" else f"{name}_from"
        compare("fields", STEPS, line, page, list(fields(known, reader)))
    for line, (name, _, refused, told) in rows(STEPS, "edit"):
        page = re.findall(r"[A-Z]\w+(?: \d+)?", re.sub(r"\([^)]*\)", "", refused))
        compare("verdicts of edits", STEPS, line, squeezed(page), verdicts_of(name))
        order = re.findall(r"\b[A-Z]+(?:_[A-Z]+)+\b", told)
        compare("dispatches of edits", STEPS, line, set(order), set().union(*sent[name]))
        for part in sent[name]:
            compare("looks", STEPS, line, tuple(name for name in order if name in part), tuple(part))

def variants(path, enum):
    """The variants of an enum."""
    return re.findall(r"^    (\w+)[,({]", re.search(rf"enum {enum} \{{\n(.*?)^\}}", text_of(path), re.M | re.S)[1], re.M)

def numbered(path, enum):
    """The numbers and the names of an enum's variants, as they are written."""
    found = re.findall(rf"{enum}::(\w+) => (\d+),", text_of(path))
    return [(number, re.sub(r"(?<!^)(?=[A-Z])", " ", name).lower()) for name, number in found]

def clauses_of(call):
    """The clauses of each public function of this name, of the crate or the type before it; one without a name is `ensures`."""
    *owner, name = call.split("::")
    for path in sorted(glob.glob("crates/*/src/**/*.rt", recursive=True)):
        text = text_of(path)
        if not owner or path.split("/")[1] == owner[0] or re.search(rf"^impl\b[^{{]*\b{owner[0]}\b", text, re.M):
            for head in re.findall(rf"pub fn {name}\b(.*?)^ *\{{\}}?$", text, re.M | re.S):
                yield set(re.findall(r"ensures (\w+) \{", head)) | set(re.findall(r"(ensures) \{", head))

def compare_kinds():
    """What the kinds of fields may be."""
    limits, channels = constants("guild_model"), "crates/guild_model/src/channel.rt"
    readers = {**functions("crates/edit_text/src/steps.rt"), **functions("crates/edit_fields/src/fields.rt")}
    below = lambda name: re.search(r"(?:, |< )((?:1 << )?\d+)(?:\)| \{)", readers[name])[1].replace("1 << ", "2^")
    types = {"channel type": numbered(channels, "ChannelKind"), "overwrite type": numbered(channels, "OverwriteKind"),
             "thread type": numbered("crates/guild_model/src/thread.rt", "ThreadKind")}
    names = {"status": re.findall(r"Status::\w+ => \"(\w+)\"", text_of("crates/guild_model/src/presence.rt"))}
    numbers = {"time": ["1970", str(limits["END_OF_TIME"])], "ids": [str(limits["MENTIONS"])], "count": ["0", str(limits["PARTS"])],
               "position": [below("position_at")], "connection": [below("connection_at")], "code": [below("code_at")],
               "milliseconds": [below("tick_from")], "worker": ["0", str(int(below("worker_at")) - 1)]}
    page = {kind: (line, cell.split(" (")[0]) for line, (kind, cell) in rows(STEPS, "kind")}
    for sources, form in ((types, r"(\d+) ([a-z]+)"), (names, r"\"(\w+)\""), (numbers, r"2\^\d+|\d+")):
        for kind, source in sources.items():
            line, cell = page[kind]
            compare("kinds of fields", STEPS, line, re.findall(form, cell), source)

def compare_frames():
    """The opcodes, and the keys that are read of `d`."""
    shapes = functions("crates/gateway_frames/src/shapes.rt")
    readers = dict(re.findall(r"(\d+) => (?:Ok\(Frame::\w+\()?(\w+)\(", text_of("crates/gateway_frames/src/read.rt")))
    def keys(reader):
        inner = re.findall(r"(?:=|=>) (\w+_from)\(alloc, object\)", shapes[reader])
        return set(re.findall(r"object(?:, |\.get\()\"(\w+)\"", shapes[reader])).union(*map(keys, inner))
    page = {op.split(" ")[0]: (line, set(re.findall(r"`(\w+)`", cell))) for line, (op, cell, _) in rows(STEPS, "op")}
    compare("frames", STEPS, 1, set(page), set(readers))
    for op, (line, named) in page.items():
        compare("keys of frames", STEPS, line, named, keys(readers[op]))

def compare_words():
    """The words of `serve` and `client`, the forms of lines, and what standard error says."""
    limits = {**constants("serve_words"), "MOST_FILES": int(re.search(r"num_args\(1\.\.=(\d+)\)", text_of("crates/serve_words/src/grammar.rt"))[1])}
    names = {"PORT": "LAST_PORT", "URL": "MOST_URL_BYTES", "TOKEN": "MOST_TOKEN_BYTES"}
    for page in (SERVE, CLIENT):
        for line, (word, cell, _) in rows(page, "word"):
            if word != "INTENTS":
                compare("words of commands", page, line, int(re.findall(r"\d+", cell)[-1]), limits[names.get(word, f"MOST_{word}")])
    said = text_of("crates/scenario/src/texts.rt", *(f"crates/{crate}/src/*.rt" for crate in ("log_summary", "serve_run", "serve_parts", "client_follow")))
    for page in (TRANSCRIPT, LOAD, SERVE, CLIENT):
        for line, (form, _) in rows(page, "line"):
            word = re.match(r"[a-z ]*", form)[0]
            compare("forms of lines", page, line, form, form if not word or f'"{word}' in said else "no such line in the sources")
    ends = re.findall(r"^    ((?:guild|strays) \d.*)$", text_of(SERVE), re.M)
    compare("forms of lines", SERVE, 1, ends, text_of("examples/clients/edits.out").splitlines())
    literals = re.findall(r"\"(gate: [^\"]*)\"", text_of(*(f"crates/{crate}/src/complaint.rt" for crate in ("file_commands", "gateway_main"))))
    forms = [re.sub(r"\\\{\w*\\\}", ".+", re.escape(literal)) for literal in literals]
    for page in FOR_AUTHORS:
        for number, line in enumerate(text_of(page).split("\n"), 1):
            if line.startswith("gate: "):
                known = any(re.fullmatch(form, line) for form in forms)
                compare("complaints", page, number, line, line if known else "nothing that standard error says")

def compare_numbers():
    """Numbers with commas are constants, or one more or less, or twice one; counts of things are what the tables have."""
    constants_of_all = re.findall(r"const \w+: \w+ =\s*([\d_]+);", text_of("crates/*/src/**/*.rt"))
    known = {int(value.replace("_", "")) for value in constants_of_all}
    known |= {value + more for value in known for more in (-1, 1)} | {2 * value for value in known}
    sizes = {"kinds of dispatches": len(variants("crates/intent_set/src/kind.rt", "Kind")), "close codes": len(list(rows(TRANSCRIPT, "code"))),
             "steps": len(list(rows(STEPS, "step"))), "edits": len(list(rows(STEPS, "edit")))}
    for page in [*FOR_AUTHORS, "docs/ADDING.md"]:
        for number, line in enumerate(text_of(page).split("\n"), 1):
            for found in re.findall(r"(?<![\d,\"\\])\d{1,3}(?:,\d{3})+(?![\d,])", line):
                compare("numbers", page, number, found, found if int(found.replace(",", "")) in known else "no such constant")
            for count, what in re.findall(r"\b(\d+|nine) (kinds of dispatches|close codes|steps|edits)\b", line):
                compare("numbers", page, number, 9 if count == "nine" else int(count), sizes[what])
    shown = [(name, int(value)) for _, (name, value, _) in rows(STEPS, "intent")]
    sums = (sum(value for _, value in shown), sum(value for name, value in shown if "privileged" in name))
    told = re.search(r"together are (\d+), all privileged ones (\d+)", text_of(STEPS))
    compare("numbers", STEPS, 1, tuple(map(int, told.groups())), sums)

def compare_readme():
    """README's length, its first run, the fields of the law, the statuses, the calls with their clauses, and the kit."""
    text = text_of(README)
    compare("words of README", README, 1, max(len(text.split()), MOST_WORDS), MOST_WORDS)
    blocks = [re.sub(r"(?m)^    ", "", block) for block in re.findall(r"(?:^    .*\n)+", text, re.M)]
    for path in ("examples/first.jsonl", "examples/first.out"):
        compare("first run", README, 1, path, path if text_of(path) in blocks else f"not the whole of {path}")
    record = re.search(r"record TheLaw .*?\n((?:  .*\n)*)", text_of("crates/world_law/specs/TheLaw.antt"))[1]
    fields = {name for _, (cell, *_) in rows(README, "field") for name in re.findall(r"\w+", cell)}
    compare("fields of the law", README, 1, fields, set(re.findall(r"pub (\w+) :", record)))
    told = {status for page, head in STATUSES for _, (status, *_) in rows(page, head)}
    compare("statuses", README, 1, {status for _, (cell, _) in rows(README, "status") for status in cell.split(", ")}, told)
    calls = [(1, "gateway_main::gate", {"law", "does"}), (1, "files_main::gate_files", {"law", "does"}), (1, "scenario::play", {"law", "plays"}), (1, "worker_run::work", {"law"})]
    for line, (_, call, says) in rows(README, "family"):
        calls.append((line, call.strip("`"), set(re.findall(r"`(\w+)`", says.split(":")[0])) if ":" in says else {"ensures"}))
    for line, call, wanted in calls:
        known = any(wanted <= clauses for clauses in clauses_of(call))
        compare("clauses of README", README, line, wanted, wanted if known else {f"no call {call} with these clauses"})
    if shutil.which("rt"):
        kit = subprocess.run(["rt", "version"], capture_output=True, text=True).stdout.strip()
        compare("kit", README, 1, re.search(r"`(rattle-kit-[^`]*)`", text)[1], kit)

def compare_tables():
    for line, (_, value, place) in rows(STEPS, "limit"):
        crate, name = re.findall(r"`(\w+)`", place)
        compare("limits", STEPS, line, int(value.replace(",", "")), constants(crate).get(name))
    bits = dict(re.findall(r"const (\w+) = 1 << (\d+)", text_of("crates/intent_set/src/flags.rt")))
    for line, (name, value, _) in rows(STEPS, "intent"):
        compare("intents", STEPS, line, int(value), 1 << int(bits[name.split(" ")[0]]))
    source = re.findall(r"Verdict::(\w+)(?: \{ \.\. \})? => (\d+)", text_of("crates/guild_model/src/verdict.rt"))
    source += re.findall(r"LineFault::(\w+) => ([1-9])", text_of("crates/line_faults/src/lib.rt"))
    page = [(line, (name, number)) for line, (number, name, *_) in rows(TRANSCRIPT, "number")]
    compare_rows("verdicts and faults", TRANSCRIPT, page, source)
    sent = text_of("crates/session_core/src/*.rt")
    codes = {name: code for name, code in constants("gateway_frames").items() if 4000 <= code < 4100 and re.search(rf"\b{name}\b", sent)}
    source = sorted((code, name.lower().replace("_", " ")) for name, code in codes.items())
    compare_rows("close codes", TRANSCRIPT, [(line, (int(code), name)) for line, (code, name, *_) in rows(TRANSCRIPT, "code")], source)
    statuses = {**functions("crates/file_commands/src/statuses.rt"), **functions("crates/gateway_main/src/statuses.rt")}
    others = constants("file_commands")
    for (page, head), name in zip(STATUSES, ("play_status", "load_status", "serve_status", "follow_status", "lift_status")):
        told = [int(others.get(status, status)) for status in re.findall(r"=> (\w+),", statuses[name])]
        compare_rows("statuses", page, [(line, int(status)) for line, (status, *_) in rows(page, head)], sorted({*told, others["BAD_WORDS"]}))

def add_objects(kind, value, found):
    """Adds the keys of an object and of those inside it."""
    found[kind].append(set(value))
    for key, inner in value.items() if kind != "presence" else ():
        held = "thread member" if (kind, key) == ("THREAD_LIST_SYNC", "members") else OBJECT_OF.get(key)
        for one in inner if isinstance(inner, list) else [inner]:
            if held and isinstance(one, dict):
                add_objects(held, one, found)

def compare_payloads():
    found = collections.defaultdict(list)
    for text in re.findall(r"^send \d+ (.*)$", text_of("examples/*.out", "examples/worked/*.out"), re.M):
        sent = json.loads(text)
        if sent["op"] == 0:
            add_objects(OBJECT_OF.get(sent["t"], sent["t"]), sent["d"], found)
    page = [(line, name, cell) for line, (names, cell, _) in rows(PAYLOADS, "object") for name in names.split(", ")]
    compare("objects", PAYLOADS, 1, {name for _, name, _ in page}, set(found))
    for line, name, cell in page:
        keys = {key + ("" if all(key in one for one in found[name]) else "?") for key in set().union(*found[name])}
        compare("keys", PAYLOADS, line, {key + mark for key, mark in re.findall(r"`(\w+)`(\??)", cell)}, keys)

def compare_quotes():
    """Each step line and transcript line that a page quotes stands in an example; `..` leaves something out."""
    steps = [json.loads(line) for line in text_of("examples/*.jsonl").split("\n") if line]
    bare = [{key: value for key, value in step.items() if key != "note"} for step in steps]
    for path in ["README.md", "examples/README.md", *sorted(glob.glob("docs/*.md"))]:
        for number, line in enumerate((re.sub("^    ", "", line) for line in text_of(path).split("\n")), 1):
            if line.startswith('{"step"'):
                compare("quotes", path, number, line, line if json.loads(line) in bare else "no such step line in examples/")
            elif re.match(r"(send|close|wish|refused|stop line) \d", line):
                found = re.search(f"^{'.*'.join(map(re.escape, line.split('..')))}$", text_of("examples/*.out"), re.M)
                compare("quotes", path, number, line, line if found else "no such line in examples/")
    files = {os.path.splitext(os.path.basename(path))[0] for path in glob.glob("examples/*.jsonl")}
    compare("examples", "examples/README.md", 1, {name for _, (name, _) in rows("examples/README.md", "file")}, files)
    compare("steps in examples", STEPS, 1, {step["step"] for step in steps}, {name for _, (name, *_) in rows(STEPS, "step")})
    edits = {name for _, (name, *_) in rows(STEPS, "edit")}
    quoted = [json.loads(line) for line in text_of(STEPS).split("\n") if line.startswith('{"step"')]
    wanted = edits | {name for _, (name, *_) in rows(STEPS, "step")}
    compare("lines to copy", STEPS, 1, {step[key] for step in quoted for key in ("step", "do") if key in step}, wanted)
    compare("edits in examples", STEPS, 1, {step.get("do") for step in steps} & edits, edits)

def names_of(cell):
    """The names of a cell of code, with those in braces."""
    return re.findall(r"[A-Za-z_]\w*", re.sub(r"\w+::(?=[\w{])", "", cell))

def compare_definitions():
    """Each definition stands in a file that its row names, and each file of specs/ is named somewhere on the page."""
    page, where, cell = text_of("docs/DEFINITIONS.md").split("\n"), collections.defaultdict(set), ""
    for path in glob.glob("crates/*/specs/*.antt") + glob.glob("crates/*/src/**/*.rt", recursive=True):
        for name in re.findall(r"^\s*(?:\w+ )*?(?:pub )?(?:record |data |struct |enum )?(\w+)\s*(?:[:{(]|$)", text_of(path), re.M):
            where[name].add(path)
    for line, cells in rows("docs/DEFINITIONS.md", "definition"):
        cell = cell if cells[-1] == "the same" else cells[-1]
        for name in names_of(cells[0]):
            found = [path for path in where[name] if path.split("/")[1] in cell or os.path.basename(path) in cell]
            compare("definitions", "docs/DEFINITIONS.md", line, name, name if found else f"no such definition in {cell}")
    for path in glob.glob("crates/*/specs/*.antt"):
        crate, file = path.split("/")[1], os.path.basename(path)
        named = file == "Lib.antt" or any(re.search(rf"\b{file[:-5]}\b", line) and (crate in line or file[:-5] + "`" in line) for line in page)
        compare("files of specs", "docs/DEFINITIONS.md", 1, path, path if named else "not named there")

def compare_claims():
    """Each clause and definition that carries a claim stands in a file that its row names; each law and each clause of README has a row."""
    together = []
    for line, (_, names, where) in rows(CLAIMS, "claim"):
        paths = re.findall(r"`([\w./]+)`", where)
        source = text_of(*(path if os.path.exists(path) else "crates/" + path for path in paths))
        for name in re.findall(r"`(\w+)`", names) if any(path.endswith((".rt", ".antt")) for path in paths) else ():
            known = re.search(rf"\b(?:fn|ensures|record|data) {name}\b|^\s*(?:\w+ )*{name} :|^    {name}\(", source, re.M)
            compare("claims", CLAIMS, line, name, name if known else f"not in {where}")
        together.append(set(re.findall(r"`(\w+)`", names)))
    calls = [(call.strip("`").split("::")[-1], name) for _, (_, call, says) in rows(README, "family") for name in re.findall(r"`(\w+)`", says.split(":")[0])]
    laws = [("TheLaw", name) for _, (cell, *_) in rows(README, "field") for name in re.findall(r"\w+", cell)]
    for pair in calls + laws:
        compare("carried claims", CLAIMS, 1, pair, pair if any(set(pair) <= names for names in together) else "no row")

def compare_crates():
    """Each crate has a README, which names no function that the crate does not have, and is on the page of layers."""
    layers = text_of("docs/ARCHITECTURE.md")
    for crate in re.findall(r"^(\w+)(?: \w+)?:", text_of("crates.txt"), re.M):
        path, source = f"crates/{crate}/README.md", text_of(f"crates/{crate}/src/**/*.rt")
        compare("READMEs of crates", path, 1, os.path.exists(path), True)
        compare("layers", "docs/ARCHITECTURE.md", 1, crate, crate if f"`{crate}`" in layers else "not named there")
        for head in ("function", "call"):
            for line, (cell, *_) in rows(path, head) if os.path.exists(path) else ():
                for name in names_of(" ".join(re.findall(r"`([^`]+)`", f"`{cell}`"))):
                    known = re.search(rf"\b(fn|struct|enum|trait|mod|const) {name}\b", source)
                    compare("functions of crates", path, line, name, name if known else "no such function in its src/")

def compare_paths():
    """Each file that a document names exists."""
    for path in ["README.md", *sorted(glob.glob("docs/*.md"))]:
        for number, line in enumerate(text_of(path).split("\n"), 1):
            for name in re.findall(r"`((?:[\w.]+/)+\w+\.(?:rt|antt|md|sh|py|jsonl))`", line):
                if not name.startswith(("src/", "specs/", "proofs/", "data/")):
                    compare("files", path, number, name, name if os.path.exists(name) or os.path.exists("crates/" + name) else "no such file")
    for line, (*_, where) in rows("docs/GLOSSARY.md", "word"):
        for name, path in re.findall(r"`(\w+)` in `([\w/.]+)`", where):
            known = re.search(rf"\bpub (?:\w+ )*{name}\b|^\s+{name} :", text_of(f"crates/{path}"), re.M)
            compare("words", "docs/GLOSSARY.md", line, name, name if known else f"not defined in {path}")
    crate = None
    for line, (cell, files, _) in rows("docs/ADDING.md", "crate"):
        crate = next(iter(re.findall(r"^\w+$", cell.split("`")[0])), None) if cell and not cell.startswith("the ") else crate if not cell else None
        for name in re.findall(r"`([\w./]+)`", files) if crate else ():
            compare("files", "docs/ADDING.md", line, name, name if os.path.exists(f"crates/{crate}/{name}") else f"no such file in {crate}")

def follow_pipe(gate):
    """Writes the first example into a pipe, and reads what each part of it causes before it writes on."""
    steps = text_of("examples/first.jsonl").splitlines(True)
    with subprocess.Popen([gate, "run", "-"], stdin=subprocess.PIPE, stdout=subprocess.PIPE) as run, rig.within(60, run):
        for part, count in ((steps[:6], 1), (steps[6:7], 2), (steps[7:], 1)):
            run.stdin.write("".join(part).encode())
            run.stdin.flush()
            shown = [run.stdout.readline().decode() for _ in range(count)]
            compare("lines followed", TRANSCRIPT, 1, shown, [line for line in shown if line in text_of("examples/first.out").splitlines(True)])

def play_examples(gate):
    """Plays each example, also by the reader that docs/TRANSCRIPT.md shows, and compares what it prints."""
    shown = {}
    exec(re.search(r"```python\n(.*?)```", text_of(TRANSCRIPT), re.S)[1], shown)
    for path in sorted(glob.glob("examples/*.jsonl")) if gate else ():
        out = os.path.splitext(path)[0] + ".out"
        wanted = text_of(out).split("\n")
        status = 5 if any(line.startswith("stop ") for line in wanted) else 0
        run = subprocess.run([gate, "run", path], capture_output=True, timeout=60)
        compare_rows("lines played", out, list(enumerate(wanted, 1)), run.stdout.decode().split("\n"))
        compare("examples played", out, len(wanted), status, run.returncode)
        *read, last = shown["read"](path, gate)
        compare("examples read", TRANSCRIPT, 1, (len(wanted) - 1, status), (len(read), last[2]))
    if gate:
        follow_pipe(gate)
        compare("causes", TRANSCRIPT, 1, shown["cause"](text_of("examples/first.jsonl").encode().splitlines(True), 4, gate), 9)

gate = rig.program("docs")
for part in (compare_readme, compare_steps_and_edits, compare_kinds, compare_frames, compare_words, compare_numbers, compare_tables, compare_payloads,
             compare_quotes, compare_definitions, compare_claims, compare_crates, compare_paths, lambda: play_examples(gate)):
    part()
print(*(f"docs: {failure[:900]}\n" for failure in failures), sep="", end="")
print(f"docs: {sum(counts.values())} compared: " + ", ".join(f"{count} {what}" for what, count in counts.items()))
sys.exit(bool(failures))
