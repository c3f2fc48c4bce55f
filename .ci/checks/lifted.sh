#!/usr/bin/env bash
# Lifts the step files of examples/ and examples/worked, and compares what they and their lifted files are played as.
set -eu
exec python3 "$(dirname "$0")/lifted.py"
