"""How long the lexer takes on the longest text, as a ratio to a plain lexer in C.

Both programs run on a text of 65,536 bytes and on an empty one, in turn; the difference of the two shortest times is the time
of the text itself, without that of starting a process and whatever else the machine did. The text is refused at its second program, so that nothing but its
tokens is worked on. Usage, after `make build`: python3 bench/lex.py
"""

import os
import subprocess
import tempfile

from measure import HERE, ZIRIA, shortest

LINE = b"let comp main = read[bit] >>> { x <- take; y <- take; emit x ^ y; return () } >>> write[bit]\n"
LONGEST = 65536
RUNS = 200


def cost(words, texts):
    """The seconds that the long text costs above the empty one, by the shortest time of each."""
    times = shortest({text: words + [text] for text in texts}, RUNS)
    empty, long = (times[text] for text in texts)
    return long - empty


def main():
    with tempfile.TemporaryDirectory() as scratch:
        plain = os.path.join(scratch, "lex")
        subprocess.run(["cc", "-O2", "-o", plain, os.path.join(HERE, "lex.c")], check=True)
        texts = [os.path.join(scratch, name) for name in ("empty.zir", "long.zir")]
        for text, content in zip(texts, (b"", (LINE * (LONGEST // len(LINE) + 1))[:LONGEST])):
            with open(text, "wb") as file:
                file.write(content)
        ours = cost([ZIRIA, "run", "--ticks", "1"], texts)
        theirs = cost([plain], texts)
    print(f"65,536 bytes: ziria {1000 * ours:.2f} ms, plain C {1000 * theirs:.2f} ms, ratio {ours / theirs:.1f}")


main()
