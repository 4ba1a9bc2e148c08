#!/bin/sh
# Proves the program `study` and what it stands on, and builds it: crates/study/out/study. Says what the check says where that fails.
set -e
root=$(cd "$(dirname "$0")/.." && pwd)
log=$(mktemp)
trap 'rm -f "$log"' EXIT
cd "$root/crates/study"
if ! rt run < /dev/null > "$log" 2>&1; then
    cat "$log"
    exit 1
fi
