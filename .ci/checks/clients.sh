#!/usr/bin/env bash
# Serves a script of edits to the bots of examples/clients, each of which loses its link twice and resumes.
set -eu
exec python3 "$(dirname "$0")/clients.py"
