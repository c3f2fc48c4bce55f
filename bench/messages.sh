#!/usr/bin/env bash
# Measures 100,000 messages in one guild, which keeps the latest 16,384 of them: prints the time of
# each, ten thousand after ten thousand, and that of channels that go with few and with many messages.
set -euo pipefail
source "$(dirname "${BASH_SOURCE[0]}")/try.sh"
try_program messages "edit_apply message_edit channel_edit guild_model collections snowflake_id perm_bits anyhow"
