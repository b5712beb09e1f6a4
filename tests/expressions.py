"""Random expressions and statements on the program zir_evaluate, against a reference of the language in the folder that REFERENCE names.

Each case is a program of structs, variables, functions and one `do`, made from the seed and its number alone. Compared are the cells of its value or its trap with
its place, and the ticks. Usage, after `make build`:
REFERENCE=FOLDER python3 tests/expressions.py [--program PATH] [--seed S] [--first I] [--count N]"""

import argparse
import concurrent.futures
import os
import random
import subprocess
import sys
import tempfile

ROOT = os.path.dirname(os.path.dirname(os.path.abspath(__file__)))
PROGRAM = os.path.join(ROOT, "crates", "zir_evaluate", "out", "zir_evaluate")
SECONDS = 20
MANY = 1_000_000

sys.dont_write_bytecode = True
sys.path.insert(0, os.environ.get("REFERENCE", os.path.join(ROOT, "..", "shared", "oracle")))
from generate import Maker, spelled  # noqa: E402
from ziria_oracle import Refused, accept, profile_named, run_of  # noqa: E402


def made(chance):
    """The text of a program whose main component is a `do`."""
    maker = Maker(chance, "all", profile_named("r7"))
    for _ in range(chance.randint(0, 2)):
        maker.add_struct()
    for _ in range(chance.randint(0, 5)):
        chance.choice([maker.add_top, maker.add_fun, maker.add_fun])()
    names = maker.top_env()
    body = maker.stmts(names, 2, 4)
    if chance.random() < 0.9:
        wanted = maker.value_type()
        text = maker.want(wanted, names, 3)
        body.append(f"return {spelled(wanted)}({text})" if isinstance(wanted, str) and wanted.startswith("int") else f"return {text}")
    declared = "\n".join(maker.decls)
    return f"{declared}\nlet comp main = read[bit] >>> do {{ {'; '.join(body)} }} >>> write[bit]\n"


def cells(value):
    """The cells of a value, one after the other."""
    if isinstance(value, tuple):
        return [cell for part in value for cell in cells(part)]
    return [int(value)]


def expected(core, ticks):
    """What the reference says of a program."""
    end = run_of([core], [], None, ticks)
    if end.kind == "spent":
        return "spent\n"
    if end.kind == "trap":
        told = f"trap {end.end.code} at {end.end.place[0]}:{end.end.place[1]}"
    else:
        told = " ".join(["value"] + [str(cell) for cell in cells(end.end)])
    return f"{told}\nticks {end.ticks}\n"


def differs(program, seed, number, folder):
    """What is wrong with a case, or nothing."""
    chance = random.Random(f"{seed}:{number}")
    while True:
        text = made(chance)
        try:
            core = accept(text.encode())
            break
        except Refused:
            continue
    ticks = chance.choice([MANY, MANY, MANY, chance.randint(0, 60)])
    path = os.path.join(folder, f"{number}.zir")
    with open(path, "w", encoding="utf-8") as file:
        file.write(text)
    run = subprocess.run([program, path, str(ticks)], stdin=subprocess.DEVNULL, capture_output=True, timeout=SECONDS, check=False)
    os.remove(path)
    wanted = expected(core, ticks)
    if run.returncode == 0 and run.stdout.decode() == wanted:
        return None
    return f"case {seed}:{number} with {ticks} ticks\n{text}expected\n{wanted}status {run.returncode}\n{run.stdout.decode()}{run.stderr.decode()}"


def main():
    asked = argparse.ArgumentParser()
    asked.add_argument("--program", default=PROGRAM)
    asked.add_argument("--seed", type=int, default=1)
    asked.add_argument("--first", type=int, default=0)
    asked.add_argument("--count", type=int, default=300)
    words = asked.parse_args()
    program = os.path.abspath(words.program)
    numbers = range(words.first, words.first + words.count)
    with tempfile.TemporaryDirectory() as folder, concurrent.futures.ThreadPoolExecutor(2) as pool:
        found = [text for text in pool.map(lambda n: differs(program, words.seed, n, folder), numbers) if text]
    for text in found[:5]:
        print(text)
    print(f"{words.count - len(found)} passed, {len(found)} failed")
    return 1 if found else 0


if __name__ == "__main__":
    sys.exit(main())
