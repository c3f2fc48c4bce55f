#!/usr/bin/env bash
# Measures `gate serve` over loopback, with 1, 64 and 4 x 64 sessions: dispatches and bytes a second, the processor time of
# the server, the latency from an edit to its text at the clients, and the share of a processor with 64 silent sessions.
#
# usage: serve.sh [PROGRAM [OTHER]]: of PROGRAM, or of ./gate, and beside it of another program with the same words.
set -euo pipefail
here=$(cd "$(dirname "${BASH_SOURCE[0]}")/.." && pwd)
if [ $# -eq 0 ]; then
  "$here/gate" --build
  set -- "$here/out/gate"
fi
exec python3 "$here/bench/serve.py" "$@"
