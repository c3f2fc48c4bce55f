#!/usr/bin/env bash
# Compares the pages for bot authors with the sources and with the transcripts of the examples.
set -eu
exec python3 "$(dirname "$0")/docs.py"
