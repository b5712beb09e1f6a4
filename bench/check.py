"""How long `check` takes, and how much memory it needs, on texts of up to 65,536 bytes that are built to hurt.

Each text should pass within a second and 500 MB, and what does not is flagged. `check` runs on the text, `show` on the same text, and `check` on the text
without its last byte, which is read and refused as no program; the shortest times tell what `check` takes as ratios to the others. Each text is accepted, or refused
for the reason that stands beside it, and the program must answer so; want of memory is such a reason, where all instances together would take too much. A figure is
one of one machine, and no test rests on it.
Usage, after `make build`: python3 bench/check.py [--texts FOLDER], which writes the texts into a folder and measures nothing.
"""

import os
import subprocess
import sys
import tempfile

from measure import FRAME, ZIRIA, filled, memory, shortest

LONGEST = 65536
RUNS = 5
SECONDS = 1
MEBIBYTES = 500e6 / (1 << 20)
NO_MEMORY = "want of memory"
DIGITS = "0123456789abcdefghijklmnopqrstuvwxyz"


def name(number):
    """The short name of a number, which is no keyword."""
    digits = ""
    while number or not digits:
        number, digit = divmod(number, len(DIGITS))
        digits = DIGITS[digit] + digits
    return "_" + digits


def many(piece, count):
    return "".join(piece(number) for number in range(count))


def block(piece, head="", first="", tail="take"):
    """A block in main with as many pieces as there is room for, behind declarations."""
    return filled(piece, LONGEST, f"{head}let comp main=read[bit]>>>{{{first}", f"{tail}}}>>>write[bit]")


def tree(leaves):
    """Atoms joined by `>>>`, as low as they can be joined."""
    while len(leaves) > 1:
        pairs = [f"({left}>>>{right})" for left, right in zip(leaves[::2], leaves[1::2])]
        leaves = pairs + leaves[len(leaves) // 2 * 2:]
    return leaves[0]


def two_types():
    """Thirty components, of which each calls the one before at two types."""
    text = ["fun comp c0(){take}\n"]
    for number in range(1, 30):
        deep = min(1 << number - 1, 32)
        text.append(f"fun comp c{number}(){{c{number - 1}();repeat{{x<-take;emit {'{' * deep}x{'}' * deep}}}>>>c{number - 1}()}}\n")
    return "".join(text) + FRAME.format("c29()")


def taken_arrays():
    """Each component takes 4,096 elements of the one before it, so that cells and lengths grow at each of them."""
    return FRAME.format(tree(["repeat{x<-takes 4096;emit x}"] * 1500) + ">>>take")


def deep_arrays():
    """Arrays of one element in arrays of one element, 32 deeper at each component: few cells, and types of many lengths."""
    return FRAME.format(tree(["repeat{x<-take;emit " + "{" * 32 + "x" + "}" * 32 + "}"] * 640) + ">>>{take;emit'1}")


def fields():
    """A struct of thousands of fields, of which the last is read thousands of times."""
    struct = "struct S={" + ";".join(f"{name(number)}:bit" for number in range(3600)) + "}"
    return block(lambda number: f"emit s.{name(3599)};", struct + "var s:S;")


def struct_values():
    """Structs that are made of thousands of values."""
    struct = "struct S={" + ";".join(f"{name(number)}:bit" for number in range(1500)) + "}"
    return block(lambda number: "emit S(" + ",".join(["'1"] * 1500) + f").{name(1499)};", struct)


def instances(body):
    """A component that is typed anew at 256 types."""
    calls = "".join(f"{{x<-takes {number};emit x}}>>>b();" for number in range(1, 257))
    tail = f"}}\nlet comp main=read[bit]>>>{{{calls}take}}>>>write[bit]"
    return filled(lambda number: body, LONGEST, "fun comp b(){var y:bit;", "repeat{x<-take;emit y}" + tail)


def own_variables():
    """A variable for each component, and each pair of sides to compare."""
    count = 1200
    variables = many(lambda number: f"var {name(number)}:bit;", count)
    return variables + FRAME.format(tree([f"repeat{{x<-take;do{{{name(number)}:=x}};emit x}}" for number in range(count)]))


def read_variables():
    """A function that reads a thousand variables, in thousands of components."""
    count = 1500
    variables = many(lambda number: f"var {name(number)}:bit;", count)
    function = "fun f(x:bit):bit{var y:bit;" + many(lambda number: f"y:={name(number)};", count) + "return x}"
    return variables + function + FRAME.format(tree(["map f"] * 2000))


def called_twice(first, last, count, main):
    """Declarations that use the one before twice."""
    return many(lambda number: (last.format(number, number - 1) if number else first) + "\n", count) + FRAME.format(main)


def blocks_in_blocks():
    """Blocks 61 deep, each with a variable that hides the one outside, again and again."""
    return block(lambda number: "{var a:bit;" * 60 + "emit a" + "}" * 60 + ";")


def stages():
    """Chains of sixteen stages, on the spine, each with a variable of its own that is assigned within it."""
    stage = "repeat{var a:bit;x<-take;do{a:=x};emit a}"
    return block(lambda number: "{x<-take;emit x}" + f"|>>>|{stage}" * 15 + ";")


def texts():
    """The texts by their titles, each with the reason for which it is refused, or none."""
    variables = many(lambda number: f"var {name(number)}:bit;", 2500)
    return {
        "thirty components that call the one before at two types": (two_types(), "limit instances"),
        "a component of 3,900 statements at 256 types": (instances("do{y:=y^y^y^y};"), NO_MEMORY),
        "a component of 8,300 members at 256 types": (instances("emit y;"), NO_MEMORY),
        "arrays of 4,096 in arrays of 4,096": (taken_arrays(), "limit cells"),
        "arrays of one in arrays of one, 20,000 deep": (deep_arrays(), None),
        "a type 9,000 deep": (filled(lambda number: "arr[1]", LONGEST, "let comp main=read[", "bit]>>>{x<-take;emit x;return x}>>>write[bit]"), "types differ"),
        "5,000 variables": (many(lambda number: f"var {name(number)}:bit;", 5000) + FRAME.format("take"), None),
        "2,700 functions": (filled(lambda number: f"fun {name(number)}(x:bit){{}}\n", LONGEST, "", FRAME.format("take")), None),
        "a block of 13,000 takes": (block(lambda number: "take;"), None),
        "a block of 16,000 calls": (block(lambda number: "c();", "fun comp c(){take}"), None),
        "a list of 16,000 calls": (filled(lambda number: "f();", LONGEST, "fun f(){}fun g(){", "}" + FRAME.format("take")), None),
        "2,500 variables at the top, the first used 4,600 times": (block(lambda number: f"emit {name(0)};", variables), None),
        "2,500 variables in a block, each used": (block(lambda number: f"emit {name(number % 2500)};", "", variables), None),
        "2,500 variables of one name": (block(lambda number: "emit a;", "", "var a:bit;" * 2500), None),
        "a struct of 3,600 fields, the last read 2,500 times": (fields(), None),
        "structs of 1,500 values": (struct_values(), None),
        "blocks in blocks, 61 deep": (blocks_in_blocks(), None),
        "parentheses 60 deep": (block(lambda number: "emit" + "(" * 60 + "x" + ")" * 60 + ";", "", "x<-take;"), None),
        "sums of 60 literals": (block(lambda number: "emit bit(0" + "+1" * 60 + ");"), None),
        "an array of 4,096 arrays of 4": (FRAME.format("return{" + ",".join(["{1,2,3,4}"] * 4096) + "}"), None),
        "1,200 components, each with its own variable": (own_variables(), None),
        "2,000 components that read 1,500 variables": (read_variables(), None),
        "chains of sixteen stages": (stages(), None),
        "1,400 functions that call the one before twice": (
            called_twice("fun f0(x:bit):bit{return x}", "fun f{0}(x:bit):bit{{return f{1}(f{1}(x))}}", 1400, "map f1399"), "limit depth"),
        "250 components that call the one before twice": (called_twice("fun comp c0(){take}", "fun comp c{0}(){{c{1}();c{1}()}}", 250, "c249()"), "limit depth"),
        "1,900 structs of the one before twice": (called_twice("struct S0={a:bit}", "struct S{0}={{a:S{1};b:S{1}}}", 1900, "take"), "limit cells"),
        "1,900 structs of the one before": (called_twice("struct S0={a:bit}", "struct S{0}={{a:S{1}}}", 1900, "take"), None),
    }


def measured(title, text, reason, folder):
    """A line on a text, and whether it passed and was answered as it should be."""
    whole, cut = os.path.join(folder, "whole.zir"), os.path.join(folder, "cut.zir")
    for path, content in ((whole, text), (cut, text[:-1])):
        with open(path, "w") as file:
            file.write(content)
    ran = subprocess.run([ZIRIA, "check", whole], stdin=subprocess.DEVNULL, capture_output=True, text=True)
    found = NO_MEMORY if ran.returncode == 9 else ran.stderr.strip().rpartition(": ")[2] or None
    times = shortest({"check": [ZIRIA, "check", whole], "show": [ZIRIA, "show", whole], "cut": [ZIRIA, "check", cut]}, RUNS)
    most = memory([ZIRIA, "check", whole])
    flags = [flag for flag, raised in (("SLOW", times["check"] > SECONDS), ("LARGE", most > MEBIBYTES), (f"ANSWERED {found}", found != reason)) if raised]
    ratios = f"{times['check'] / times['show']:.2f} times show, {times['check'] / times['cut']:.1f} times reading it"
    line = f"{title} ({len(text)} bytes, {reason or 'accepted'}): {ratios}, {1000 * times['check']:.1f} ms, {most:.1f} MiB"
    return " ".join([line] + flags), not flags


def main():
    if sys.argv[1:2] == ["--texts"]:
        for number, (text, _) in enumerate(texts().values()):
            with open(os.path.join(sys.argv[2], f"{number:02}.zir"), "w") as file:
                file.write(text)
        return
    if not os.path.exists(ZIRIA):
        sys.exit("bench/check: make build first")
    passed = 0
    with tempfile.TemporaryDirectory() as folder:
        for title, (text, reason) in texts().items():
            line, fine = measured(title, text, reason, folder)
            passed += fine
            print(line, flush=True)
    print(f"{passed} of {len(texts())} within {SECONDS} second and 500 MB")


if __name__ == "__main__":
    main()
