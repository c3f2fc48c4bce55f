#!/usr/bin/env bash
# Compares the definitions that docs/LAW.md quotes with the files that it names.
set -eu
exec python3 "$(dirname "$0")/law.py"
