"""Measures a step of evaluation by code, as a ratio to a plain tree walk in C (walk.c) that does the same work in the same run.

Each figure is the difference of two loops of different lengths, each the shortest of several runs, so that starting and reading fall out; a
statement stands in a turn many times, and the time of the turn itself is taken away. Usage, after `rt run -- data/sum.zir 100` in
crates/zir_evaluate: python3 bench/steps.py [--runs N] [--program PATH]"""

import argparse
import os
import subprocess
import sys
import tempfile

from measure import FRAME, HERE, shortest

PROGRAM = os.path.join(HERE, "..", "crates", "zir_evaluate", "out", "zir_evaluate")
TICKS = str(10**15)
COPIES = 16
SHORT, LONG = 20_000, 420_000
STATEMENTS = {"xor": "x := x ^ a", "sum": "x := a + b * c", "index": "x := d[k]", "call": "x := f(a)"}
TITLES = {"xor": "`x ^ y`", "sum": "`a + b * c`", "index": "`a[i]`", "call": "a call", "loop": "a loop turn"}
FUNCTION = "fun f(n : int32) : int32 { return n }\n"
VARIABLES = "var x : int32; var a : int32 := 5; var b : int32 := 7; var c : int32 := 11; var k : int32 := 3; var d : arr[8] int32"


def text_of(kind, turns):
    """A loop of so many turns over copies of a statement."""
    inside = "; ".join([STATEMENTS[kind]] * COPIES) if kind in STATEMENTS else ""
    return FUNCTION + FRAME.format(f"do {{ {VARIABLES}; for i in [0, {turns}] {{ {inside} }}; return x }}") + "\n"


def commands(program, walk, folder):
    """What is run: each kind and each length, by code and in C."""
    found = {}
    for kind in TITLES:
        for turns in (SHORT, LONG):
            path = os.path.join(folder, f"{kind}{turns}.zir")
            with open(path, "w", encoding="utf-8") as file:
                file.write(text_of(kind, turns))
            found[kind, turns, "code"] = [program, path, TICKS]
            found[kind, turns, "walk"] = [walk, kind, str(turns), str(COPIES)]
    return found


def steps(times, how):
    """The nanoseconds of each kind."""
    turn = {kind: (times[kind, LONG, how] - times[kind, SHORT, how]) / (LONG - SHORT) * 1e9 for kind in TITLES}
    return {kind: turn[kind] if kind == "loop" else (turn[kind] - turn["loop"]) / COPIES for kind in TITLES}


def main():
    asked = argparse.ArgumentParser()
    asked.add_argument("--runs", type=int, default=9)
    asked.add_argument("--program", default=PROGRAM)
    words = asked.parse_args()
    program = os.path.abspath(words.program)
    if not os.access(program, os.X_OK):
        sys.exit(f"steps: there is no program {program}")
    with tempfile.TemporaryDirectory() as folder:
        walk = os.path.join(folder, "walk")
        subprocess.run(["cc", "-O2", "-o", walk, os.path.join(HERE, "walk.c")], check=True)
        times = shortest(commands(program, walk, folder), words.runs)
    code, plain = steps(times, "code"), steps(times, "walk")
    print("| step | by code | walk in C | ratio |\n|---|---|---|---|")
    for kind, title in TITLES.items():
        print(f"| {title} | {code[kind]:.1f} ns | {plain[kind]:.1f} ns | {code[kind] / plain[kind]:.1f} |")


if __name__ == "__main__":
    main()
