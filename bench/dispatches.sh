#!/usr/bin/env bash
# Measures how fast texts of dispatches are written, one body in the frames of 64 sessions, and read
# back: a guild of MEMBERS members and small dispatches. Prints bytes a second.
set -euo pipefail
here=$(cd "$(dirname "${BASH_SOURCE[0]}")/.." && pwd)
work=$(mktemp -d)
trap 'rm -rf "$work"' EXIT
python3 "$here/bench/dispatches.py" "${1:-300}" >"$work/dispatches.txt"
(cd "$here/crates/dispatch_bench" && rt run >&2)
for figure in "write 20" "read 20"; do
  python3 "$here/bench/rate.py" "$here/crates/dispatch_bench/out/dispatch_bench" $figure "$work/dispatches.txt"
done
