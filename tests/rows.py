"""Runs the rows of tests/rows/*.txt on the built program and compares all that it does with what they say. tests/README.md tells their
form. Usage, after `make build`: python3 tests/rows.py [--program PATH] [FILE..]"""

import argparse
import glob
import os
import re
import subprocess
import sys
import tempfile

ROOT = os.path.dirname(os.path.dirname(os.path.abspath(__file__)))
PROGRAM = os.path.join(ROOT, "crates", "ziria", "out", "ziria")
OWN_TEXT = "text.zir"
SECONDS = 60

# How the content of a field is written where its key does not say.
FORMS = {"text": "lines", "inside": "lines", "notes": "lines", "input": "bytes", "output": "bytes", "leaves": "bytes"}
NAMED = {"text", "leaves"}
ONE_LINE = {"words", "frame", "status"}

QUOTED = r'"(?:[^"\\]|\\.)*"'
PIECE = re.compile(rf"({QUOTED}|(?:[0-9a-fA-F]{{2}})+)(?:\*([0-9]+))?(?:\s+|$)")
WORD = re.compile(rf"({QUOTED}|[^\s\"]+)(?:\s+|$)")
ESCAPE = re.compile(rb'\\(x[0-9a-fA-F]{2}|["\\ntr])')
ESCAPED = {b'"': b'"', b"\\": b"\\", b"n": b"\n", b"t": b"\t", b"r": b"\r"}


class Faulty(Exception):
    """An entry that is not of the form, or a row that lacks one."""


def pieces(pattern, line):
    """The matches that fill a line."""
    found, at = [], 0
    while at < len(line):
        match = pattern.match(line, at)
        if not match:
            raise Faulty(f"cannot be read from here on: {line[at:]}")
        found.append(match)
        at = match.end()
    return found


def unquoted(text):
    """The bytes between quotation marks."""
    inside = text[1:-1].encode()
    if b"\\" in ESCAPE.sub(b"", inside):
        raise Faulty(f"no such escape: {text}")
    return ESCAPE.sub(lambda m: bytes.fromhex(m[1][1:].decode()) if m[1][:1] == b"x" else ESCAPED[m[1]], inside)


def bytes_of(line):
    """Hexadecimal digits and quoted texts, each with `*N` behind it where it stands N times."""
    found = b""
    for match in pieces(PIECE, line.strip()):
        piece = unquoted(match[1]) if match[1].startswith('"') else bytes.fromhex(match[1])
        found += piece * int(match[2] or 1)
    return found


def words_of(line):
    """The words of a command line."""
    found = []
    for match in pieces(WORD, line.strip()):
        word = unquoted(match[1]) if match[1].startswith('"') else match[1].encode()
        found.append(word.replace(b"$TEXT", OWN_TEXT.encode()))
    return found


def entries(path):
    """The entries of a file, each with the number of its line, its key and the lines of its content."""
    found = []
    with open(path, encoding="utf-8", newline="\n") as file:
        lines = file.read().split("\n")
    for number, line in enumerate(lines, 1):
        if line.startswith("#"):
            continue
        if not line.strip() or line.startswith("    "):
            if found:
                found[-1][2].append(line[4:])
            elif line.strip():
                raise Faulty(f"{path}:{number}: content without a key")
            continue
        key, colon, rest = line.partition(":")
        if not colon:
            raise Faulty(f"{path}:{number}: a key ends with a colon")
        inline = rest[1:] if rest.startswith(" ") else rest
        found.append((number, key.strip(), [inline] if inline.strip() else []))
    for _, _, content in found:
        while content and not content[-1].strip():
            content.pop()
    return found


def read_line(field, line):
    """The value of a field that has one line."""
    if field == "words":
        return words_of(line)
    if field == "status":
        if not re.fullmatch("[0-9]+", line):
            raise Faulty("a status is a number")
        return int(line)
    if line.count("...") != 1:
        raise Faulty("a frame has one `...`")
    return line.encode()


def read_entry(key, content):
    """The field and the name that a key gives, and its value."""
    field, *rest = key.split()
    form = rest.pop() if rest and rest[-1] in ("lines", "bytes") and field in FORMS else FORMS.get(field)
    name = rest.pop() if rest and field in NAMED else None
    if rest or (field not in FORMS and field not in ONE_LINE):
        raise Faulty(f"no such key: {key}")
    if field == "leaves" and name is None:
        raise Faulty("which file is left?")
    if form == "lines":
        lines = "\n".join(content)
        return (field, name), (lines + "\n" if content and field != "inside" else lines).encode()
    if form == "bytes":
        return (field, name), b"".join(bytes_of(line) for line in content)
    if len(content) > 1:
        raise Faulty(f"one line wanted: {key}")
    return (field, name), read_line(field, content[0] if content else "")


class Row:
    """A row: its place, its name, and its entries over those of the head of its file."""

    def __init__(self, place, name, head):
        self.place, self.name, self.head, self.own = place, name, head, {}

    def get(self, field, other=None):
        return self.own.get((field, None), self.head.get((field, None), other))

    def own_text(self):
        """The text that `$TEXT` names, where there is one."""
        for fields in (self.own, self.head):
            text, inside = fields.get(("text", None)), fields.get(("inside", None))
            if text is not None and inside is not None:
                raise Faulty("`text` and `inside` together")
            if inside is not None:
                if self.get("frame") is None:
                    raise Faulty("`inside` without a frame")
                return self.get("frame").replace(b"...", inside) + b"\n"
            if text is not None:
                return text
        return None

    def named(self, field):
        """The contents of this field by their names."""
        return {os.fsencode(name): value for (known, name), value in {**self.head, **self.own}.items() if known == field and name is not None}

    def texts(self):
        own = self.own_text()
        return self.named("text") if own is None else {**self.named("text"), OWN_TEXT.encode(): own}

    def wanted(self):
        if self.get("words") is None or self.get("status") is None:
            raise Faulty("a row says its words and its status")
        files = {**self.texts(), **self.named("leaves")}
        return {"status": self.get("status"), "output": self.get("output", b""), "notes": self.get("notes", b""), "files": files}


def read_rows(path):
    """The rows of a file."""
    head, rows, names = {}, [], set()
    for number, key, content in entries(path):
        try:
            if key == "row":
                name = " ".join(content)
                if not name or name in names:
                    raise Faulty("a row has a name of its own")
                names.add(name)
                rows.append(Row(f"{os.path.relpath(path, ROOT)}:{number}", name, head))
                continue
            fields = rows[-1].own if rows else head
            known, value = read_entry(key, content)
            if known in fields:
                raise Faulty(f"said twice: {key}")
            fields[known] = value
        except Faulty as fault:
            raise Faulty(f"{path}:{number}: {fault}") from None
    if not rows:
        raise Faulty(f"{path}: no rows")
    return rows


def run(row, program):
    """What the program does on a row, in a folder with the row's texts alone."""
    with tempfile.TemporaryDirectory() as folder:
        folder = os.fsencode(folder)
        for name, text in row.texts().items():
            with open(os.path.join(folder, name), "wb") as file:
                file.write(text)
        ran = subprocess.run([program, *row.get("words")], cwd=folder, input=row.get("input", b""), capture_output=True, timeout=SECONDS)
        files = {}
        for name in os.listdir(folder):
            with open(os.path.join(folder, name), "rb") as file:
                files[name] = file.read()
    return {"status": ran.returncode, "output": ran.stdout, "notes": ran.stderr, "files": files}


def shown(value):
    """A value as a report tells it: bytes in hexadecimal, and lines as text."""
    if isinstance(value, dict):
        return ", ".join(f"{os.fsdecode(name)} = {shown(content)}" for name, content in sorted(value.items())) or "none"
    if not isinstance(value, bytes):
        return str(value)
    is_text = value.endswith(b"\n") and all(byte in b"\n\t" or 32 <= byte <= 126 for byte in value)
    told = repr(value.decode()) if is_text else value.hex(" ") or "nothing"
    return told if len(told) <= 400 else f"{told[:400]} .. ({len(value)} bytes)"


def differences(row, program):
    """A line for each thing that is not as the row says."""
    try:
        wanted = row.wanted()
        found = run(row, program)
    except Faulty as fault:
        return [f"faulty row: {fault}"]
    except subprocess.TimeoutExpired:
        return [f"no end within {SECONDS} seconds"]
    return [f"{what}: {shown(found[what])}\n    not: {shown(wanted[what])}" for what in wanted if found[what] != wanted[what]]


def main():
    parser = argparse.ArgumentParser(usage="rows.py [--program PATH] [FILE..]")
    parser.add_argument("--program", default=PROGRAM)
    parser.add_argument("files", nargs="*")
    words = parser.parse_args()
    if not os.access(words.program, os.X_OK):
        print(f"rows: there is no program {words.program}: make build")
        return 1
    passed = failed = 0
    for path in words.files or sorted(glob.glob(os.path.join(ROOT, "tests", "rows", "*.txt"))):
        try:
            rows = read_rows(path)
        except (Faulty, OSError, UnicodeDecodeError) as fault:
            print(f"faulty file: {fault}")
            failed += 1
            continue
        for row in rows:
            lines = differences(row, os.path.abspath(words.program))
            passed, failed = passed + (not lines), failed + bool(lines)
            if lines:
                print(f"{row.place}: {row.name}", *lines, sep="\n  ")
    print(f"rows: {passed} passed, {failed} failed")
    return 1 if failed or not passed else 0


sys.exit(main())
