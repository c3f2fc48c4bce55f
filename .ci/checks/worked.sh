#!/usr/bin/env bash
# Plays the step files of examples/worked, and compares their transcripts with those that are stored.
set -eu
exec python3 "$(dirname "$0")/worked.py"
