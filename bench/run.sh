#!/bin/sh
# Measures the runner on streams of bits as a ratio to plain C, after `make build`. It is skipped where python3 is not there.
cd "$(dirname "$0")/.." || exit 1
if ! command -v python3 >/dev/null; then
    echo "bench/run: skipped, python3 is not there"
    exit 0
fi
exec python3 bench/run.py
