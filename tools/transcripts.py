"""Reads the transcripts: scripts for crates/defmap_tool, and what it has to print of each.

In its folder `transcripts` the file `scripts` has the scripts. A line `=== NAME` begins a text of that name, which is what
stands in the lines behind it. Further words have it run:

- `=== NAME alone`: empty lines part the text into scripts, and each is run;
- `=== NAME behind NAME..`: each is run behind the lines of these texts, which stand before.

A heading `=== # ..` is a comment, without a text. Where no line stands behind a heading, its text is the one of that name
that stands before. In a text `%{HEX}` is the byte of that number, and `%{-}` at the end of a line takes its line feed away.

The file `answers` has the headings, and behind each its text; or what the lines before the scripts print, and then each
script, and what it prints behind that. What a script prints stands behind `=> `, or as `=>` where a line is empty. How it
ends follows where it does not run to its end.
"""
import re
from dataclasses import dataclass

from judging import ROOT, Wrong, read_text

FOLDER = f"{ROOT}/crates/defmap_tool/transcripts"
HEADING = "=== "
COMMENT = "#"
ENDS = "ends: "
NUMBER = re.compile(rb"%\{(-|[0-9a-f]+)\}(\n?)")


@dataclass
class Script:
    """Lines for the tool, what they print without fault injection, and with how many of its lines others begin too."""

    title: str
    lines: bytes
    printed: bytes
    begun: int = 0

    def is_refused(self):
        """Whether one of its lines is refused, and it ends there."""
        return b"refused " in self.printed


def bytes_of(lines):
    """What a text is: its lines, each with its line feed, and bytes in place of their numbers."""
    return NUMBER.sub(lambda it: b"" if it[1] == b"-" else bytes([int(it[1], 16)]) + it[2], f"{lines}\n".encode())


def split_lines(script):
    """The lines of a script, each with its line feed; the last may lack it."""
    return re.findall(rb"[^\n]*\n|[^\n]+\Z", script)


def pieces(name):
    """The headings of a file, each with what stands behind it."""
    text = read_text(f"{FOLDER}/{name}").removesuffix("\n")
    if not text.startswith(HEADING):
        raise Wrong(f"{name} begins without a heading")
    for piece in text.removeprefix(HEADING).split(f"\n{HEADING}"):
        heading, _, lines = piece.partition("\n")
        yield heading, lines


def paired(where, given, told):
    """What stands in `scripts`, each with what stands in `answers` in its place."""
    given, told = list(given), list(told)
    if len(given) != len(told):
        raise Wrong(f"of {where} scripts has {len(given)}, and answers {len(told)}")
    return zip(given, told)


def printed_by(where, answers):
    """What the lines behind a script say that it prints."""
    printed = []
    for line in filter(None, answers.split("\n")):
        if line == "=>" or line.startswith("=> "):
            printed.append(line[len("=> ") :] + "\n")
        elif not line.startswith(ENDS):
            raise Wrong(f"{where} has a line of another form: {line}")
    whole = "".join(printed)
    if (f"{ENDS}refused" in answers.split("\n")) != ("refused " in whole):
        raise Wrong(f"{where} says otherwise how it ends")
    return whole.encode()


class Transcripts:
    """The scripts with what they print; the texts, and which of them some script has."""

    def __init__(self):
        self.texts, self.used, self.scripts, self.beginnings = {}, set(), [], {}
        for (heading, own), (told, printed) in paired("the headings", pieces("scripts"), pieces("answers")):
            if heading != told:
                raise Wrong(f"scripts has the heading '{heading}', and answers '{told}'")
            name, *words = heading.split(" ")
            if name == COMMENT:
                continue
            self.texts[name] = own or self.texts[name]
            if words:
                self.used.update((name, *words[1:]))
                self._add(heading, words[1:], self.texts[name].split("\n\n"), f"\n{printed}".split("\n\n"))
            elif printed != own:
                raise Wrong(f"answers has the text {name} otherwise")

    def _add(self, heading, names, rows, blocks):
        """Adds the scripts behind a heading."""
        beginning = b"".join(bytes_of(self.texts[it]) for it in names)
        begun = printed_by(heading, blocks[0])
        self.beginnings[tuple(names)] = beginning, begun
        for number, (row, block) in enumerate(paired(heading, rows, blocks[1:]), 1):
            title = f"{heading}, {number}"
            if not block.startswith(f"{row}\n") and block != row:
                raise Wrong(f"answers has another script {title}")
            printed = begun + printed_by(title, block[len(row) + 1 :])
            self.scripts.append(Script(title, beginning + bytes_of(row), printed, len(split_lines(beginning))))

    def beginning(self, *names):
        """The lines of texts behind which scripts are run, and what they print."""
        return self.beginnings[names]

    def unused(self):
        """The texts that no script has."""
        return [it for it in self.texts if it not in self.used]
