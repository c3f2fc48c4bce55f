"""Runs a command once with ample memory, and then again and again, each time with one allocation refused, alone and with all
after it.

usage: refused.py LIBRARY STATUSES FIRST STEP STARTS WORD..

LIBRARY is the allocator; STATUSES are those that may come, with commas. Of the FIRST allocations each is refused in turn, and of
the others one of STEP. Each run has to end with one of the statuses and to print a front of what the first run printed, all of
it if its status is 0. With all after it a start may fail too, since it is asked for twice: then the status is 8 and nothing is
printed. Then each of the first STARTS starts of a thread fails in turn. Alone the next try makes up for it: all is as in the
first run. With all after it the status has to be 8 and nothing printed."""
import collections
import os
import subprocess
import sys
import tempfile

library, statuses, command = sys.argv[1], {int(it) for it in sys.argv[2].split(",")}, sys.argv[6:]
first, step, starts = (int(it) for it in sys.argv[3:6])


def run(at, on, count=None, start=0):
    env = dict(os.environ, LD_PRELOAD=library, REFUSED_AT=str(at), REFUSED_START=str(start))
    if on:
        env["REFUSED_ON"] = "1"
    if count:
        env["REFUSED_COUNT"] = count
    ran = subprocess.run(command, env=env, capture_output=True, timeout=120)
    return ran.returncode, ran.stdout


with tempfile.TemporaryDirectory() as folder:
    status, whole = run(0, False, folder + "/count")
    many = int(open(folder + "/count").read())
print(f"{' '.join(command)}: status {status}, {len(whole)} bytes, {many} allocations", flush=True)
found, bad = collections.Counter(), 0
for at in (*range(1, min(first, many) + 1), *range(first + step, many + 1, step)):
    for on in False, True:
        status, printed = run(at, on)
        found[status] += 1
        is_start = on and starts and status == 8 and not printed
        if not is_start and (status not in statuses or not whole.startswith(printed) or status == 0 and printed != whole):
            bad += 1
            print(f"allocation {at}{' and all after it' if on else ''}: status {status}, {len(printed)} bytes", flush=True)
for start in range(1, starts + 1):
    for on, right in (False, (0, whole)), (True, (8, b"")):
        status, printed = run(0, on, start=start)
        found[status] += 1
        if (status, printed) != right:
            bad += 1
            print(f"start {start}{' and all after it' if on else ''}: status {status}, {len(printed)} bytes", flush=True)
print(f"{sum(found.values())} runs, by status {dict(sorted(found.items()))}, {bad} not as they should be")
sys.exit(bad > 0)
