#!/usr/bin/env bash
# Measures `gate serve` with one guild and four workers, each of which follows the guild's log: the time and the peak of memory
# at ever more entries, with the reading of their lines. Neither the time of one entry nor the memory is to grow with their number.
set -euo pipefail
here=$(cd "$(dirname "${BASH_SOURCE[0]}")/.." && pwd)
[ $# -gt 0 ] || set -- 100000 900000
"$here/gate" --build
python3 "$here/bench/hub.py" "$here/out/gate" "$@"
