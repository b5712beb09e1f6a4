"""What the measurements share: texts that are as long as they may be, and the time and the memory of a program."""

import os
import subprocess
import time

HERE = os.path.dirname(os.path.abspath(__file__))
ZIRIA = os.path.join(HERE, "..", "crates", "ziria", "out", "ziria")
FRAME = "let comp main = read[bit] >>> {} >>> write[bit]"


def filled(piece, longest, head="", tail=""):
    """Pieces, each with its number, up to this length, between a head and a tail."""
    text, number = [head], 0
    length = len(head) + len(tail)
    while length + len(piece(number)) <= longest:
        text.append(piece(number))
        length += len(text[-1])
        number += 1
    return "".join(text) + tail


def seconds(words):
    began = time.perf_counter()
    subprocess.run(words, stdin=subprocess.DEVNULL, stdout=subprocess.DEVNULL, stderr=subprocess.DEVNULL)
    return time.perf_counter() - began


def shortest(commands, runs):
    """The shortest time of each command, by its name, where all run in turn."""
    times = {name: [] for name in commands}
    for _ in range(runs):
        for name, words in commands.items():
            times[name].append(seconds(words))
    return {name: min(found) for name, found in times.items()}


def full_pipe():
    """A pipe that takes no byte until some are read."""
    reader, writer = os.pipe()
    os.set_blocking(writer, False)
    try:
        while True:
            os.write(writer, bytes(4096))
    except BlockingIOError:
        os.set_blocking(writer, True)
    return reader, writer


def is_waiting(pid):
    """Whether a process sleeps or has ended."""
    with open(f"/proc/{pid}/stat") as file:
        return file.read().rpartition(")")[2].split()[0] in "SZ"


def memory(words):
    """The most memory, in MiB, that a program has had when it puts its first byte, or when it ends where it puts none."""
    reader, writer = full_pipe()
    child = subprocess.Popen(words, stdin=subprocess.DEVNULL, stdout=writer, stderr=writer)
    os.close(writer)
    looks = 0
    while looks < 3:
        time.sleep(0.02)
        looks = looks + 1 if is_waiting(child.pid) else 0
    with open(f"/proc/{child.pid}/status") as status:
        found = [int(line.split()[1]) for line in status if line.startswith("VmHWM:")]
    while os.read(reader, 1 << 16):
        pass
    os.close(reader)
    _, status, usage = os.wait4(child.pid, 0)
    child.returncode = os.waitstatus_to_exitcode(status)
    return (found[0] if found else usage.ru_maxrss) / 1024
