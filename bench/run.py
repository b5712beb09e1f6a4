"""How fast the runner turns bits, as a ratio to a plain program in C, and what it costs in memory.

One turning loop, and three of them joined by `>>>`, run over 16 MiB and over 1 MiB of random bits; the C program turns each bit
as many times. Each figure is the shortest of a few runs in turn, so that whatever else the machine does falls out as far as it can.
Usage, after `make build`: bench/run.sh
"""

import os
import shutil
import subprocess
import tempfile
import time

HERE = os.path.dirname(os.path.abspath(__file__))
ZIRIA = os.path.join(HERE, "..", "crates", "ziria", "out", "ziria")
MEBIBYTE = 1 << 20
TICKS = str(1 << 48)
RUNS = 3


def resident(pid):
    """The most memory, in KiB, that a process has had, or 0 where it has ended."""
    try:
        with open(f"/proc/{pid}/status") as file:
            for line in file:
                if line.startswith("VmHWM:"):
                    return int(line.split()[1])
    except OSError:
        pass
    return 0


def run(words, source):
    """The seconds and the most memory, in KiB, of a run of these words on this file."""
    memory = 0
    with open(source, "rb") as stdin, open(os.devnull, "wb") as nowhere:
        began = time.perf_counter()
        child = subprocess.Popen(words, stdin=stdin, stdout=nowhere, stderr=nowhere)
        while child.poll() is None:
            memory = max(memory, resident(child.pid))
            time.sleep(0.01)
        seconds = time.perf_counter() - began
    if child.returncode != 0:
        raise SystemExit(f"{words} ended with the status {child.returncode}")
    return seconds, memory


def best(words, source):
    """The shortest time of a few runs, and the most memory."""
    runs = [run(words, source) for _ in range(RUNS)]
    return min(seconds for seconds, _ in runs), max(memory for _, memory in runs)


def program(scratch, stages):
    """The path of a program of so many turning loops."""
    path = os.path.join(scratch, f"flip{stages}.zir")
    loops = " >>> ".join(["repeat { x <- take; emit x ^ '1 }"] * stages)
    with open(path, "w") as file:
        file.write(f"let comp main = read[bit] >>> {loops} >>> write[bit]\n")
    return path


def main():
    with tempfile.TemporaryDirectory() as scratch:
        plain = None
        if shutil.which("cc"):
            plain = os.path.join(scratch, "flip")
            subprocess.run(["cc", "-O2", "-o", plain, os.path.join(HERE, "flip.c")], check=True)
        else:
            print("no cc: without the ratio to plain C")
        inputs = {}
        for size in (1, 16):
            inputs[size] = os.path.join(scratch, f"bits{size}")
            with open(inputs[size], "wb") as file:
                file.write(os.urandom(size * MEBIBYTE))
        bits = {size: 8 * size * MEBIBYTE for size in inputs}
        times = {}
        for stages in (1, 3):
            words = [ZIRIA, "run", "--ticks", TICKS, program(scratch, stages)]
            short, short_memory = best(words, inputs[1])
            long, memory = best(words, inputs[16])
            times[stages] = long
            line = f"{stages} loop{'s' if stages > 1 else ''}: {bits[16] / long / 1e6:.1f} million bits a second"
            line += f", {1e9 * long / bits[16]:.1f} ns a bit over 16 MiB and {1e9 * short / bits[1]:.1f} over 1 MiB"
            line += f", memory {memory} KiB and {short_memory} KiB"
            if plain:
                theirs, _ = best([plain, str(stages)], inputs[16])
                line += f"; plain C {1e9 * theirs / bits[16]:.1f} ns a bit, ratio {long / theirs:.1f}"
            print(line)
        print(f"3 loops cost {times[3] / times[1]:.2f} times 1 loop")


main()
