"""Runs each command of examples/README.md, and compares all that it prints with what stands there. Usage, after `make build`:
python3 tests/examples.py"""

import os
import subprocess
import sys

ROOT = os.path.dirname(os.path.dirname(os.path.abspath(__file__)))


def commands(lines):
    """Each command with the lines that it prints."""
    found, inside = [], False
    for line in lines:
        if line == "```":
            inside = not inside
        elif inside and line.startswith("$ "):
            found.append((line[2:], []))
        elif inside:
            found[-1][1].append(line)
    return found


def main():
    path = os.path.join(ROOT, "crates", "ziria", "out") + os.pathsep + os.environ["PATH"]
    with open(os.path.join(ROOT, "examples", "README.md")) as file:
        found = commands(file.read().splitlines())
    failed = 0
    for command, expected in found:
        ran = subprocess.run(["sh", "-c", command], cwd=ROOT, env={**os.environ, "PATH": path}, stdout=subprocess.PIPE, stderr=subprocess.STDOUT, text=True)
        printed = ran.stdout.splitlines()
        if printed != expected:
            failed += 1
            print(f"{command}\nprinted\n", *(f"  {line}\n" for line in printed), "and not\n", *(f"  {line}\n" for line in expected), sep="")
    print(f"examples: {len(found) - failed} passed, {failed} failed")
    return 1 if failed or not found else 0


sys.exit(main())
