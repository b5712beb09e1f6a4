#!/bin/sh
# Runs the rows of tests/rows on the built program, where python3 is there.
cd "$(dirname "$0")/.." || exit 1
if ! command -v python3 >/dev/null; then
    echo "rows: skipped, python3 is not there"
    exit 0
fi
# The gate and make build leave the program; without one it is built here.
[ -x crates/ziria/out/ziria ] || (cd crates/ziria && rt run -- run --ticks 1 ../../examples/xor.zir </dev/null >/dev/null) || exit 1
exec python3 tests/rows.py
