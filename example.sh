#!/bin/sh
# Proves and builds the program `study`, and runs it on the four-section archive with its twelve lines.
set -e
root=$(cd "$(dirname "$0")" && pwd)
"$root/tests/build.sh"
cd "$root/crates/study/data"
../out/study < ../stdin | paste -d '\t' ../stdin -
