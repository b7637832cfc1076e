"""Counts of instructions by valgrind's callgrind, of a whole run and inside a function."""
import re
import subprocess
import tempfile
from dataclasses import dataclass

SECONDS = 1_800
LINE_OF_COST = re.compile(r"[-+*\d]")
GENERIC = re.compile(r"::<[^<>]*>$")


class Unmeasured(Exception):
    """A run that does not count."""


@dataclass
class Counts:
    """What a run cost: all its instructions, and of each function its calls and the instructions inside them."""

    total: int
    calls: dict
    inside: dict


def said(names, word):
    """The function that a word of the file means: a number, with its name at the first time."""
    number, _, name = word.partition(" ")
    if name:
        names[number] = GENERIC.sub("", name)
    return names[number]


def read_counts(file):
    """The counts that a file of callgrind's holds. A line `calls=` is followed by one that ends in what these calls cost."""
    names, calls, inside, total = {}, {}, {}, 0
    called = None
    for line in file:
        line = line.rstrip("\n")
        key, has_value, value = line.partition("=")
        if key == "fn":
            said(names, value)
        elif key == "cfn":
            called = said(names, value)
        elif has_value and key == "calls":
            calls[called] = calls.get(called, 0) + int(value.split()[0])
        elif called and LINE_OF_COST.match(line):
            inside[called] = inside.get(called, 0) + int(line.split()[-1])
            called = None
        elif line.startswith("totals:"):
            total = int(line.split()[1])
    return Counts(total, calls, inside)


def count(tool, script):
    """The counts of one run of the tool on a script, of which no line may be refused."""
    with tempfile.TemporaryDirectory(prefix="bench-") as room:
        with open(f"{room}/script", "w+", encoding="utf-8") as given:
            given.write(script)
            given.seek(0)
            words = ["valgrind", "--tool=callgrind", f"--callgrind-out-file={room}/counts", tool]
            ran = subprocess.run(words, stdin=given, capture_output=True, timeout=SECONDS)
        if ran.returncode:
            told = (ran.stdout or ran.stderr)[-200:].decode(errors="replace").strip()
            raise Unmeasured(f"it ends with {ran.returncode}: {told}")
        with open(f"{room}/counts", encoding="utf-8") as file:
            return read_counts(file)
