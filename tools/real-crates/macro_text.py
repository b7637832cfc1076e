"""What stands in the text of a macro call: items that a macro hands on keep the places at which they are written."""
import re
from functools import lru_cache

from cargo_builds import read_text

# Comments, strings, characters and delimiters: a delimiter within one of the former counts for nothing.
PIECE = re.compile(r"//[^\n]*|/\*.*?\*/|\bb?r(#*)\".*?\"\1|\"(?:\\.|[^\"\\])*\""
                   r"|'(?:\\.[^'\n]*|[^\\'\n])'|[{}()\[\]]", re.S)
# What stands before the delimiter of a call.
CALL = re.compile(r"\b(?!macro_rules\b)\w+\s*!\s*$")


@lru_cache(maxsize=8)
def read_once(file):
    return read_text(file)


def open_at(text, end):
    """Where the delimiters stand that are open at a place of a text."""
    found = []
    for it in PIECE.finditer(text, 0, end):
        if it[0] in ("{", "(", "["):
            found.append(it.start())
        elif it[0] in ("}", ")", "]") and found:
            found.pop()
    return found


def in_call(where):
    """Whether a file, a line and a column, which count from 1, lie between the delimiters of a macro call."""
    file, row, column = where
    text = read_once(file)
    lines = text.split("\n")
    end = sum(len(it) + 1 for it in lines[: row - 1]) + column - 1
    return any(CALL.search(text, max(0, it - 200), it) for it in open_at(text, end))
