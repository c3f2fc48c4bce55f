#!/usr/bin/env bash
# Measures `gate run` on files of LINES lines: renames of guilds, looks at them, and sessions that
# follow them. The first figure has 8 sessions on one worker and a look after every 16 renames, the
# second 64 sessions on each of the four workers and a look of each worker after every rename. Two more
# have 2,000 changes of permissions in a guild of 500 channels and 1,000 threads, for 1 session and for
# 64. Prints lines and output bytes a second and the peak of memory.
set -euo pipefail
here=$(cd "$(dirname "${BASH_SOURCE[0]}")/.." && pwd)
lines=${1:-200000}
work=$(mktemp -d)
trap 'rm -rf "$work"' EXIT
"$here/gate" --build
python3 "$here/bench/steps.py" "$lines" 1 8 16 >"$work/few.jsonl"
python3 "$here/bench/steps.py" "$((lines / 10))" 4 64 1 >"$work/many.jsonl"
for figure in few many; do
  echo "$figure sessions"
  python3 "$here/bench/measure.py" "$here/out/gate" "$work/$figure.jsonl" "$work/transcript"
done
for sessions in 1 64; do
  for edits in 0 2000; do
    python3 "$here/bench/rights.py" "$edits" "$sessions" >"$work/rights.jsonl"
    echo "$edits changes of permissions, sessions: $sessions"
    python3 "$here/bench/measure.py" "$here/out/gate" "$work/rights.jsonl" "$work/transcript"
  done
done
