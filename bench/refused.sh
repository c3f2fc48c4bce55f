#!/usr/bin/env bash
# Refuses each allocation of `gate run examples/first.jsonl` and of `gate load 7` in turn, alone and with all after it, and
# compares what is printed with a run that has memory: the status is 0 or 6, and the output is a front of the whole one; with all
# after it a load may also end with 8 and nothing, if a start was refused twice. Of a load's allocations, 100,000 or more, the
# first FIRST are tried and then one of STEP. Then each of its starts fails in turn, alone and with all after it.
set -euo pipefail
here=$(cd "$(dirname "${BASH_SOURCE[0]}")/.." && pwd)
first=${1:-1500}
step=${2:-4001}
work=$(mktemp -d)
trap 'rm -rf "$work"' EXIT
gcc -O2 -shared -fPIC -o "$work/refused.so" "$here/bench/refused/refused.c" -ldl
"$here/gate" --build
cd "$here"
python3 bench/refused.py "$work/refused.so" 0,6 1000 1 0 out/gate run examples/first.jsonl
python3 bench/refused.py "$work/refused.so" 0,6 "$first" "$step" 21 out/gate load 7
