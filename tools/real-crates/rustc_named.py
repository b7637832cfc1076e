"""What rustc names of a crate (`-Zunpretty=hir-tree`): its items, the variants of enums, and constructors, each with the
module or enum that it stands in, and where it stands. Those of bodies and of `impl`s are told apart by the lists that
rustc prints of what each module and each `extern` block has. Both forms that `rustc_tree` knows are read.
"""
import re
from collections import Counter
from dataclasses import dataclass, field
from os.path import normpath

from rustc_tree import INSIDE, KINDS, without_raw

HEAD = re.compile(r"( *)(?:\w+\( ?)*(Item|ForeignItem|Variant|TraitItem|ImplItem) \{\n")
NUMBER = re.compile(r"DefId\(\d+:(\d+) ~ \w+\[\w+\]([^)]*)\)")
OWN = re.compile(r"(?:def_id|owner_id): " + NUMBER.pattern)
FIELD_KIND = re.compile(r"kind: (\w+)")
SPAN = re.compile(r"span: (.+?):(\d+):(\d+): \d+:\d+ \(#(\d+)\)")
WORDS = {**KINDS, "Type": "type", "ExternCrate": "extern crate"}
# What has a constructor.
WITH_VALUES = ("Tuple(", "Unit(")
# Why something is none of the items that modules name.
IMPORTS = "leaves and stems of `use`, which are compared as imports"
NAMELESS = "`impl`s, `extern` blocks and what else has no name"
UNNAMED = "constants by the name `_`"
ADDED = "crates that the compiler adds"
WITHIN = "items in bodies and in `impl`s"
ASSOCIATED = "associated items"


@dataclass(frozen=True)
class Named:
    """Something with a name."""

    home: str  # the module or the enum that it stands in
    name: str
    kind: str
    where: tuple = ()  # file, row and column; nothing where it stands nowhere
    is_written: bool = True  # in the files of the crate, and not by a macro
    is_textual: bool = False  # a macro by `macro_rules!`


@dataclass
class Open:
    """What is being read."""

    indent: str
    sort: str
    number: int = 0
    path: str = "crate"
    name: str = ""
    kind: str = ""
    where: tuple = ()
    context: str = ""
    has_values: bool = False
    is_textual: bool = False


@dataclass
class Names:
    """What rustc names: by the numbers of the items, with what each module and each `extern` block has."""

    items: list = field(default_factory=list)  # numbers, and what they are
    within: dict = field(default_factory=dict)  # of each number the one of the module or the block that has it
    modules: set = field(default_factory=lambda: {0})  # the numbers of modules and of `extern` blocks
    left: Counter = field(default_factory=Counter)  # what has no name in a module, by reason
    stack: list = field(default_factory=list)

    def watched(self, lines):
        """The same lines, of which it is noted what they name."""
        for line in lines:
            self.note(line)
            yield line

    def note(self, line):
        head = HEAD.fullmatch(line) if line.endswith(" {\n") else None
        if head or line.endswith(" node: Crate(\n"):
            indent = head[1] if head else " " * (len(line) - len(line.lstrip()))
            self.stack.append(Open(indent, head[2] if head else "Crate"))
        elif self.stack:
            one = self.stack[-1]
            inner = line[len(one.indent) + 4:] if line.startswith(f"{one.indent}    ") else ""
            if inner:
                self.note_inner(one, inner)
            elif line.startswith(one.indent) and line.strip() in ("}", "},", ")", "),"):
                self.close(self.stack.pop())

    def note_inner(self, one, inner):
        """Notes a line of something that is open: a field of it, or what stands further in."""
        if inner[0] != " ":
            note_field(one, inner)
        elif one.sort == "Item" and one.kind == "Struct" and inner.startswith("    ") and inner.strip() in WITH_VALUES:
            one.has_values |= inner[4] != " "
        elif one.kind == "Macro" and inner.strip() == "macro_rules: true,":
            one.is_textual = True
        elif one.sort == "Crate" or one.kind in ("Mod", "ForeignMod"):
            found = OWN.search(inner)
            if found:
                self.within[int(found[1])] = one.number

    def close(self, one):
        """Notes what was open."""
        if one.sort in ("TraitItem", "ImplItem"):
            self.left[ASSOCIATED] += 1
        elif one.sort == "Variant":
            self.add_variant(one, self.stack[-1])
        elif one.sort != "Crate":
            self.add(one)

    def add_variant(self, one, enum):
        self.items.append((enum.number, Named(enum.path, one.name, "variant", one.where, one.context == "0")))
        if one.has_values:
            self.items.append((enum.number, Named(enum.path, one.name, "constructor", one.where, one.context == "0")))

    def add(self, one):
        if one.kind in ("Mod", "ForeignMod"):
            self.modules.add(one.number)
        word, name = WORDS.get(one.kind), without_raw(one.path.rpartition("::")[2])
        if one.kind == "Use":
            self.left[IMPORTS] += 1
        elif not word or name.startswith("{"):
            self.left[NAMELESS] += 1
        elif name == "_":
            self.left[UNNAMED] += 1
        elif word == "extern crate" and not one.where:
            self.left[ADDED] += 1
        else:
            home, is_written = one.path.rpartition("::")[0], one.context == "0"
            self.items.append((one.number, Named(home, name, word, one.where, is_written, one.is_textual)))
            if one.has_values:
                self.items.append((one.number, Named(home, name, "constructor", one.where, is_written)))

    def is_in_module(self, number):
        """Whether modules and `extern` blocks lead to an item from the root."""
        while number:
            number = self.within.get(number)
            if number not in self.modules:
                return False
        return True

    def of_modules(self):
        """What modules and their enums name; how many others there are is counted."""
        found = [named for number, named in self.items if self.is_in_module(number)]
        if len(found) < len(self.items):
            self.left[WITHIN] = len(self.items) - len(found)
        return found


def note_field(one, line):
    """Notes a field of something."""
    word = line.partition(": ")[0]
    if word in ("def_id", "owner_id") and one.sort != "Variant":
        found = NUMBER.search(line)
        one.number, one.path = int(found[1]), f"crate{INSIDE.sub('', found[2])}"
    elif word == "ident":
        one.name = without_raw(line[len("ident: "):].rpartition("#")[0])
    elif word == "kind":
        one.kind = FIELD_KIND.match(line)[1]
    elif word == "data":
        one.has_values = line.strip().endswith(WITH_VALUES)
    elif word == "span" and (span := SPAN.match(line)):
        one.where, one.context = (normpath(span[1]), int(span[2]), int(span[3])), span[4]
