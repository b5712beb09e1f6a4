#!/bin/sh
# Compares the built program with a reference of the language, on random programs, words and inputs. It is skipped where
# python3 or the reference's folder is not there; REFERENCE names another folder, CASES another number of cases.
cd "$(dirname "$0")/.." || exit 1
root=$PWD
reference=${REFERENCE:-$root/../shared/oracle}
if ! command -v python3 >/dev/null; then
    echo "against-reference: skipped, python3 is not there"
    exit 0
fi
if ! [ -f "$reference/fuzz.py" ]; then
    echo "against-reference: skipped, the reference is not there"
    exit 0
fi
# The gate and make build leave the program; without one it is built here.
[ -x crates/ziria/out/ziria ] || (cd crates/ziria && rt run -- run --ticks 1 ../../examples/xor.zir </dev/null >/dev/null) || exit 1
reference=$(cd "$reference" && pwd)
scratch=$(mktemp -d) || exit 1
cd "$scratch" || exit 1
if PYTHONDONTWRITEBYTECODE=1 python3 "$reference/fuzz.py" --bin "$root/crates/ziria/out/ziria" --profile r4 --seed 1 --count "${CASES:-300}"; then
    rm -r "$scratch"
else
    echo "against-reference: the cases that differ stand in $scratch/fuzz_out"
    exit 1
fi
