#!/usr/bin/env bash
# Proves and builds the program, runs it over an example, and shows the Go files: examples/run.sh [NAME]
set -euo pipefail
cd "$(dirname "$0")"
example=${1:-first}
program=$PWD/../crates/sqlc/out/sqlc
if [ ! -f "$example/sqlc.json" ]; then
    echo "There is no example '$example'. There are:" */ >&2
    exit 2
fi
echo "Building crates/sqlc/out/sqlc. The first build proves every crate and takes over an hour of one processor; later ones take about a minute." >&2
rm -f "$program"
# Without words the program only says how it is called, with status 2: this call is for its build.
(cd ../crates/sqlc && rt run) >/dev/null || true
if [ ! -x "$program" ]; then
    echo "The build failed." >&2
    exit 1
fi
(cd "$example" && "$program" generate)
tail -n +1 "$example"/db/*.go
