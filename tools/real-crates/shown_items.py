"""How many of the items that rustc names `defmap tree --variants` shows, and why it does not show the others."""
import re
from collections import Counter
from dataclasses import dataclass, field

from macro_text import in_call
from real_scopes import SPACES, is_declared

LINE = re.compile(rf"((?:  )+)({'|'.join(SPACES)}) (\S+?)(?:: (.*))?")
# Why `tree` does not show an item that rustc names in a module, or in an enum of one.
OF_VARIANTS = "constructors of variants, of which `tree` shows the variants alone"
TEXTUAL = "macros by `macro_rules!` that no module binds, as they are not exported"
IN_MACROS = "items in modules, or variants of enums, that a macro brings"
BY_MACROS = "items that a macro writes"
IN_CALLS = "items in the text of a macro's call"
INCLUDED = "items in a file that `include!` reads"
EXTERN = "`extern crate`s, whose names `tree` shows where they lead somewhere"
# Why `tree` shows what rustc does not name.
TESTS = "functions that an attribute as `#[test]` takes away"


@dataclass
class Shown:
    """What `tree` shows as declared: of each module, and each enum, the kinds and names; and the extern crates."""

    names: dict = field(default_factory=lambda: {"crate": set()})

    @classmethod
    def of(cls, printed):
        """What a tree shows that was printed."""
        found, around = cls(), ["crate"]
        for line in printed.splitlines():
            told = LINE.fullmatch(line)
            if told:
                found.add(around, len(told[1]) // 2, told)
        return found

    def add(self, around, depth, told):
        home = around[depth - 1] if depth <= len(around) else None
        kind, name, seen = told[2], told[3], told[4] or ""
        if not home:
            return
        own, is_extern = f"{home}::{name}", ", extern " in seen
        is_own = is_declared(seen) or kind == "variant" and not seen
        if is_own and kind in ("mod", "enum"):
            around[depth:] = [own]
            self.names.setdefault(own, set())
        elif around[depth:depth + 1] != [own]:
            around[depth:] = [None]
        if is_own or is_extern:
            self.names[home].add(("extern crate" if is_extern else kind, name))

    def has(self, item):
        home = "crate" if item.is_textual else item.home
        return (item.kind, item.name) in self.names.get(home, ())


@dataclass
class Part:
    """How much of what rustc names `tree` shows."""

    named: int = 0
    shown: int = 0
    hidden: Counter = field(default_factory=Counter)  # what is not shown, by reason
    alone: Counter = field(default_factory=Counter)  # what is shown, and rustc does not name, by reason
    differing: list = field(default_factory=list)


def reason_of(item, tree, files):
    """Why an item is not shown; None where that is not known."""
    if item.kind == "constructor" and ("variant", item.name) in tree.names.get(item.home, ()):
        return OF_VARIANTS
    if item.home not in tree.names:
        return IN_MACROS
    if not item.is_written:
        return BY_MACROS
    if item.where and item.where[0] not in files:
        return INCLUDED
    if item.where and in_call(item.where):
        return IN_CALLS
    if item.is_textual:
        return TEXTUAL
    return EXTERN if item.kind == "extern crate" else None


def compared(names, tree, files, own, tests):
    """Compares what rustc names with a tree; `tests` are the paths of functions that an attribute may take away."""
    part, theirs = Part(), set()
    for item in names.of_modules():
        home = "crate" if item.is_textual else item.home
        theirs.add((home, item.kind, item.name))
        part.named += 1
        if tree.has(item):
            part.shown += 1
            continue
        reason = reason_of(item, tree, files)
        part.hidden[reason or "not known"] += 1
        if not reason:
            part.differing.append(f"{item.kind} {item.home}::{item.name}: rustc has it, and it is not shown")
    ours = {(home, kind, name) for home, some in tree.names.items() for kind, name in some if SPACES.get(kind)}
    for home, kind, name in sorted(ours - theirs):
        path = f"{own}{home[len('crate'):]}::{name}"
        is_test = kind == "fn" and path in tests
        part.alone[TESTS if is_test else "not known"] += 1
        if not is_test:
            part.differing.append(f"{kind} {home}::{name}: it is shown, and rustc has it not")
    return part
