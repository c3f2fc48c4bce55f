#!/usr/bin/env bash
# Plays the loop of a worker at doors in memory: calls of links and of doors fail, drawn by fixed seeds, and each link
# is compared with the same one where nothing fails: memory_doors.sh [RUNS]. It ends with 0 if all was right.
set -euo pipefail
source "$(dirname "${BASH_SOURCE[0]}")/try.sh"
try_program memory_doors "worker_run gate_parts guild_actor guild_hub edit_post wake_bell load_maker edit_text edit_apply thread_outside \
gate_outside worker_core session_core intent_set collections snowflake_id rand_pcg rand_core anyhow" --seconds 3000 --steps 20000000000 -- "$@"
