#!/usr/bin/env bash
# Lets calls of the system fail and refuses allocations while files are played, mutates lines and frames, loses a link at each
# dispatch, reaches the limits, and sends pieces of many sizes: the short forms of the scripts that docs/FAULTS.md describes.
set -eu
exec python3 "$(dirname "$0")/faults.py"
