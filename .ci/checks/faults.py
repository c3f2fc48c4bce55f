"""Tries the built program from outside by the short forms of the scripts that docs/FAULTS.md describes, one after another, also where
one of them finds something. Without a built program nothing is played."""
import os
import shutil
import subprocess
import sys

os.chdir(os.path.join(os.path.dirname(os.path.abspath(__file__)), "../.."))
sys.path.insert(0, "bench/faults")
import rig

# Those that load a library into the program, which gcc compiles; the one that mutates needs the reference too.
BY_LIBRARY = [["failing_calls.py", "25", "15", "every_edit.jsonl,first.jsonl,long,no step"], ["refused_each.py", "40", "15"],
              ["fuzz_lines.py", "600", "3000", "15"], ["lost_each.py", "12", "15"], ["limits.py", "0", "30"], ["failing_links.py", "20"]]


def main():
    gate, oracle = rig.program("faults"), rig.oracle()
    if not gate:
        return 0
    scripts = [["pieces.py", "5000", "20"], ["raw_serve.py", gate, "1", "2000"]]
    if shutil.which("gcc"):
        scripts = [words for words in BY_LIBRARY if oracle or words[0] != "fuzz_lines.py"] + scripts
    else:
        print("faults: there is no gcc: no calls, allocations, lines, links or limits were tried", flush=True)
    if not oracle:
        print("faults: the reference was not asked: no lines and frames were mutated", flush=True)
    failed = [words[0] for words in scripts if subprocess.run([sys.executable, f"bench/{words[0]}", *words[1:]], env=dict(os.environ, GATE=gate)).returncode]
    print(f"faults: {len(scripts)} scripts, of which {len(failed)} found something" + (f": {', '.join(failed)}" if failed else ""))
    return bool(failed)


sys.exit(main())
