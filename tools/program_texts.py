"""Reads the texts of crates/defmap/transcripts: what the program `defmap` is given, and what it has to print of it.

A line `=== HEADING` begins a text, which is what stands in the lines behind it; it stands in a file `.in`, and under the
same heading in the file `.out` what is to be printed. The program reads the text from its standard input.

`items`: the heading has the table that `defmap items` prints, `items` where it is the first, and then editions and options
of `cfg`. In a text `%{HEX}` is the character of that number, and its last line has no line feed. Of a table `cut` is
printed how many beginnings of the text, cut before each character, are as long as their tokens together.

`fixtures` and `nameres`: a text is a graph of crates. Its heading is a name, and behind ` | ` the words that the program
is run with; where none stand there, `tree --dump --diagnostics`. What goes to the standard error stands behind `told: `,
and the status behind `ends: ` where it is not 0.

`expand`: a text is a file. Its heading is a name, and behind ` | ` more words for `defmap expand -`.
`tools/differential/expand-texts` asks rustc of each.
"""
import re
import subprocess
from dataclasses import dataclass

from judging import ROOT, Wrong, read_text

FOLDER = f"{ROOT}/crates/defmap/transcripts"
HEADING = "=== "
WORDS = " | "
CUT = "cut"
SECONDS = 60
CHARACTER = re.compile(r"%\{([0-9a-f]+)\}")
DUMP = ["tree", "--dump", "--diagnostics"]


@dataclass
class Text:
    """A text, the words that the program is run with, and what is printed of it."""

    title: str
    words: list
    given: str
    printed: str
    is_cut: bool = False


def pieces(name):
    """The headings of a file, each with what stands behind it."""
    text = read_text(f"{FOLDER}/{name}").removesuffix("\n")
    if not text.startswith(HEADING):
        raise Wrong(f"{name} begins without a heading")
    for piece in text.removeprefix(HEADING).split(f"\n{HEADING}"):
        heading, _, lines = piece.partition("\n")
        yield heading, lines


def paired(name):
    """The headings of two files, each with the text and with what is printed."""
    given, told = list(pieces(f"{name}.in")), list(pieces(f"{name}.out"))
    if [it for it, _ in given] != [it for it, _ in told]:
        raise Wrong(f"{name}.in and {name}.out have other headings")
    return [(heading, text, printed) for (heading, text), (_, printed) in zip(given, told)]


def table_words(heading):
    """The words of the program for a table, and whether the text is cut."""
    table, *more = heading.split(" ")
    words = ["items", "-"]
    if table != "items":
        words.append(f"--{'tokens' if table == CUT else table}")
    for it in more:
        words += ["--edition" if it.isdecimal() else "--cfg", it]
    return words, table == CUT


def item_texts():
    for number, (heading, text, printed) in enumerate(paired("items"), 1):
        words, is_cut = table_words(heading)
        given = CHARACTER.sub(lambda it: chr(int(it[1], 16)), text)
        yield Text(f"items {number}: {heading}", words, given, f"{printed}\n" if printed else "", is_cut)


def fixture_texts():
    for heading, text, printed in [*paired("fixtures"), *paired("nameres")]:
        name, _, words = heading.partition(WORDS)
        words = words.split(" ") if words else DUMP
        yield Text(f"fixture: {name}", [*words[:1], "--fixture", "-", *words[1:]], f"{text}\n", f"{printed}\n" if printed else "")


def expand_texts():
    for heading, text, printed in paired("expand"):
        name, _, words = heading.partition(WORDS)
        yield Text(f"expand: {name}", ["expand", "-", *words.split()], f"{text}\n", f"{printed}\n" if printed else "")


def texts():
    """All texts."""
    return [*item_texts(), *fixture_texts(), *expand_texts()]


def ran(tool, words, given):
    return subprocess.run([tool, *words], input=given.encode(), capture_output=True, timeout=SECONDS)


def lines_of(run):
    """What a run prints and how it ends, as the files say it."""
    told = "".join(f"told: {it}\n" for it in run.stderr.decode(errors="replace").splitlines())
    ends = f"ends: {run.returncode}\n" if run.returncode else ""
    return run.stdout.decode(errors="replace") + told + ends


def is_covered(tool, words, given):
    """Whether a text is as long as its tokens together."""
    tokens = ran(tool, words, given).stdout.decode().splitlines()
    return sum(int(it.rpartition(" ")[2]) for it in tokens) == len(given.encode())


def cut_lines(tool, words, given):
    covered = sum(is_covered(tool, words, given[:end]) for end in range(len(given)))
    return f"{covered} of {len(given)} beginnings are as long as their tokens\n"


def compare(tool, text):
    """Runs the program on a text, which has to print what stands there."""
    had = cut_lines(tool, text.words, text.given) if text.is_cut else lines_of(ran(tool, text.words, text.given))
    if had == text.printed:
        return
    lines, wanted = had.splitlines(), text.printed.splitlines()
    for number, (one, other) in enumerate(zip(lines, wanted), 1):
        if one != other:
            raise Wrong(f"line {number} is {one!r}, and not {other!r}")
    raise Wrong(f"it prints {len(lines)} lines, and not {len(wanted)}: the last is {lines[-1:]}")
