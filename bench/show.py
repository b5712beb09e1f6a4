"""How long the parser and the printer take on long texts, as ratios to a plain parser in C, and how much memory they need.

Both programs run on a text of about 65,000 bytes, on the same text without its last token, which is parsed and refused at its end, and on an empty
text, in turn. The shortest times are compared: the refused text costs its parsing, and the empty one what it costs to start a process. The whole text costs
printing besides; the program also looks at its names, types, sharing and limits, so what `check` takes on it is taken away.
Usage, after `make build`: python3 bench/show.py
"""

import os
import subprocess
import sys
import tempfile

from measure import FRAME, HERE, ZIRIA, filled, memory, shortest

LONGEST = 65000
RUNS = 100

FUNCTION = (
    "fun energy{n}(s : complex16, g : arr[3] int32) : int32 {{ var e : int32 := int32(s.re) * int32(s.re) + g[1]; "
    "if e > 4096 && not (e == 5000) then {{ e := e >> 2 }} else {{ e := -e & 255 }}; for i in [0, 3] {{ e := e + g[i] * (e - 1) }}; return e }}\n"
    "fun comp pairs{n}(k : int32) {{ x <- take; var z : bit := '1; if k > 1 then emit x ^ z else {{ emits {{x, z}}; times (k) emit x }}; "
    "repeat {{ y <- takes 4; emit y[0] ^ (y[1, 2])[0] }} }}\n"
)
HEAD = "fun f(x : bit) : bit { return x }\n"
MAIN = FRAME.format("pairs0(1) |>>>| map f")


def block(piece, first="", written="bit"):
    """A block with many pieces, behind its first member."""
    return filled(lambda number: piece, LONGEST, f"let comp main = read[bit] >>> {{ {first}", f"take }} >>> write[{written}]")


def texts():
    return {
        "a receiver's functions": filled(lambda number: FUNCTION.format(n=number), LONGEST, HEAD, MAIN),
        "a block of short members": block("take; "),
        "sums of 32": block("emit x" + " + x" * 31 + "; ", "x <- return 1; ", "int32"),
        "chains of 32 components": block("emit '1" + " >>> repeat emit '1" * 31 + "; "),
        "nested arrays": filled(lambda number: "arr[1] ", LONGEST, "let comp main = read[", "bit] >>> take >>> write[bit]"),
        "parentheses 60 deep": block("emit " + "(" * 60 + "x" + ")" * 60 + "; ", "x <- take; "),
    }


def part(word, seconds):
    """A part's time, and its ratio where the plain program takes long enough to tell."""
    ratio = f"{seconds['ziria'] / seconds['C']:.1f} times plain C" if seconds["C"] > 1e-4 else "too short in C to tell a ratio"
    return f"{word} {1000 * seconds['ziria']:.2f} ms, {ratio}"


def main():
    if not os.path.exists(ZIRIA):
        sys.exit("bench/show: make build first")
    with tempfile.TemporaryDirectory() as scratch:
        plain = os.path.join(scratch, "show")
        subprocess.run(["cc", "-O2", "-o", plain, os.path.join(HERE, "show.c")], check=True)
        programs = {"ziria": [ZIRIA, "show"], "C": [plain], "check": [ZIRIA, "check"]}
        for title, text in texts().items():
            files = [os.path.join(scratch, name) for name in ("empty.zir", "refused.zir", "whole.zir")]
            for file, content in zip(files, ("", text[:-1], text)):
                with open(file, "w") as out:
                    out.write(content)
            times = shortest({(name, file): words + [file] for name, words in programs.items() for file in files}, RUNS)
            most = {name: memory(programs[name] + [files[2]]) for name in ("ziria", "C")}
            parsing = {name: times[name, files[1]] - times[name, files[0]] for name in ("ziria", "C")}
            printing = {"ziria": times["ziria", files[2]] - times["check", files[2]], "C": times["C", files[2]] - times["C", files[1]]}
            print(f"{title}: {part('parse', parsing)}; {part('print', printing)}; memory {most['ziria']:.1f} MiB, {most['C']:.1f} MiB in C")


main()
