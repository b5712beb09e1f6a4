#!/bin/sh
# Runs the rows of tests/evaluated on the built program zir_evaluate, and random expressions beside a reference of the language, where
# python3 is there; the latter where REFERENCE or the folder next to this one names a reference.
cd "$(dirname "$0")/.." || exit 1
if ! command -v python3 >/dev/null; then
    echo "evaluated: skipped, python3 is not there"
    exit 0
fi
# The gate leaves the program; without one it is built here.
[ -x crates/zir_evaluate/out/zir_evaluate ] || (cd crates/zir_evaluate && rt run -- data/sum.zir 100 </dev/null >/dev/null) || exit 1
python3 tests/rows.py --program crates/zir_evaluate/out/zir_evaluate tests/evaluated/*.txt || exit
reference=${REFERENCE:-../shared/oracle}
if ! [ -f "$reference/ziria_oracle.py" ]; then
    echo "evaluated: random expressions are skipped, the reference is not there"
    exit 0
fi
REFERENCE=$(cd "$reference" && pwd) python3 tests/expressions.py --count "${CASES:-300}"
