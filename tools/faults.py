"""What tools/defmap-faults runs the program on: files, words, and what is told."""
import os
from dataclasses import dataclass, field


@dataclass
class Fault:
    """Files, the words that the program is run with among them, and what it has to tell."""

    title: str
    files: dict
    words: list
    status: int
    out: list = field(default_factory=list)  # lines of the standard output, each whole
    told: list = field(default_factory=list)  # parts of lines of the standard error
    whole: bool = False  # whether the standard output has no other lines
    given: bytes = b""  # the standard input
    is_limited: bool = False  # whether it may take 10 s of processor time and 1 GiB alone


@dataclass
class Link:
    """A link to a path, in place of a file."""

    path: str


def write_file(whole, text):
    if isinstance(text, Link):
        os.symlink(text.path, whole)
        return
    with open(whole, "wb") as it:
        it.write(text if isinstance(text, bytes) else text.encode())


def write(folder, files):
    """Writes files by their paths in a folder; what is no UTF-8 in a path is a surrogate."""
    for path, text in files.items():
        whole = os.path.join(folder, path)
        os.makedirs(os.path.dirname(whole), exist_ok=True)
        write_file(whole, text)
