#!/usr/bin/env bash
# Plays files and words that bot authors get wrong, and compares what the built program says of them.
set -eu
exec python3 "$(dirname "$0")/mistakes.py"
