#!/usr/bin/env bash
# Runs the program on the words given, and proves and builds it first where a source is newer than it.
set -eu
top=$(dirname "$(readlink -f "$0")")
"$top/tools/build" mo_cli
exec "$top/crates/mo_cli/out/mo_cli" "$@"
