"""The page docs/REAL-CRATES.md, and how many imports of each crate may be unknown."""
import hashlib
import json
import os
import subprocess
import textwrap
from collections import Counter
from dataclasses import asdict, dataclass, field

from cargo_builds import DEBIAN_RUSTC, PASSES, RUSTC, read_text
from judging import ROOT
from real_answers import ATTRIBUTES, BEHIND, BRACED, INJECTED, MOVED, PROCEDURAL, SINCE, TESTS

PAGE = f"{ROOT}/docs/REAL-CRATES.md"
SHARES = f"{ROOT}/tools/real-crates/shares"


@dataclass
class Row:
    """How a crate compares."""

    name: str
    version: str
    lines: int = 0
    imports: int = 0
    globs: int = 0
    compared: int = 0
    unknown: int = 0
    partly: int = 0
    brought: int = 0
    alone: int = 0  # of what `defmap` lists, and rustc prints no leaf
    modules: int = 0
    names: int = 0
    bound: int = 0
    unknown_names: int = 0
    partly_names: int = 0
    reasons: dict = field(default_factory=dict)
    unread: dict = field(default_factory=dict)  # of what rustc prints, by reason
    differing: list = field(default_factory=list)
    statistics: dict = field(default_factory=dict)
    passes: dict = field(default_factory=dict)
    items: int = 0  # what rustc names in modules and enums
    shown: int = 0  # of these, what `tree` shows
    hidden: dict = field(default_factory=dict)  # the others, by reason
    others: dict = field(default_factory=dict)  # what rustc prints, and is not named in a module, by reason
    items_alone: dict = field(default_factory=dict)  # what `tree` shows, and rustc does not name, by reason
    left_out: str = ""  # why it was not compared
    seconds: float = 0
    megabytes: int = 0
    is_supported: bool = False

    def add_reasons(self, outcome):
        for reason, count in outcome.reasons.items():
            self.reasons[reason] = self.reasons.get(reason, 0) + count
        self.differing += outcome.differing

    def add(self, outcome):
        """Adds how the imports compare."""
        self.compared, self.unknown, self.brought = outcome.compared, outcome.unknown, outcome.brought
        self.partly = outcome.partly
        self.add_reasons(outcome)

    def add_names(self, outcome, wanted, ours, tree, theirs):
        """Adds how the names of modules compare, and those of which `tree` tells something else than the imports do."""
        self.unknown_names, self.partly_names = outcome.unknown, outcome.partly
        self.bound = sum(bool(theirs[it].meant) for it in wanted if it in theirs)
        self.add_reasons(outcome)
        for where, (module, name) in wanted.items():
            spaces = {it.namespace for it in ours[where].meant}
            if tree[module].get(name, set()) != spaces:
                self.differing.append(f"{module}::{name}: {sorted(tree[module].get(name, set()))} by tree, and "
                                      f"{sorted(spaces)} by a probe")

    def add_items(self, part, others):
        """Adds how much of rustc's items the tree shows."""
        self.items, self.shown, self.hidden = part.named, part.shown, dict(part.hidden)
        self.others, self.items_alone = dict(others), dict(part.alone)
        self.differing += part.differing

    def told(self):
        if self.left_out:
            return f"left out: {self.left_out}"
        reasons = "".join(f", {count} of {reason}" for reason, count in sorted(self.reasons.items()))
        unread = "".join(f", not read {count} of {reason}" for reason, count in sorted(self.unread.items()))
        hidden = "".join(f", {count} of {reason}" for reason, count in sorted(self.hidden.items()))
        alone = "".join(f", {count} of `tree` alone of {reason}" for reason, count in sorted(self.items_alone.items()))
        return (f"{self.shown} of {self.items} items shown{hidden}{alone}; "
                f"{self.imports} imports, {self.globs} globs, {self.compared} compared, {self.unknown} unknown, "
                f"{self.partly} partly, "
                f"{self.brought} in modules of macros, {self.alone} of `defmap` alone; {self.names} names of {self.modules} modules, {self.bound} bound, "
                f"{self.unknown_names} unknown, {self.partly_names} partly{reasons}{unread}; "
                f"{'supported' if self.is_supported else 'not supported'}; {len(self.differing)} differ")


def sum_of(path):
    """A number for the text of a file."""
    with open(path, "rb") as it:
        return hashlib.sha256(it.read()).hexdigest()


def kept_rows(folder, program):
    """The rows that a folder keeps of the same program, by the names of the crates."""
    path, rows = f"{folder}/rows", {}
    for line in read_text(path).splitlines() if folder and os.path.exists(path) else []:
        made_by, row = json.loads(line)
        if made_by == program:
            rows[row["name"]] = Row(**row)
    return rows


def keep_row(folder, program, row):
    """Keeps the row of a crate, if there is a folder for that."""
    if folder:
        os.makedirs(folder, exist_ok=True)
        with open(f"{folder}/rows", "a", encoding="utf-8") as it:
            it.write(f"{json.dumps([program, asdict(row)])}\n")


def allowed(row):
    """How many imports of a crate may be unknown; any number where nothing is written of it."""
    if not os.path.exists(SHARES):
        return row.unknown
    shares = {it.split()[0]: int(it.split()[1]) for it in read_text(SHARES).splitlines() if it and it[0] != "#"}
    return shares.get(row.name, row.unknown)


def write(path, text):
    with open(path, "w", encoding="utf-8") as it:
        it.write(text)


def write_shares(rows):
    """Writes how many imports of each crate may be unknown: as many as there are."""
    lines = ["# crate, how many of its imports may be unknown, and how many it has with its globs"]
    lines += [f"{it.name} {it.unknown} {it.imports + it.globs}" for it in sorted(rows, key=lambda it: it.name)]
    write(SHARES, "\n".join(lines) + "\n")


def table(heads, rows):
    lines = ["| " + " | ".join(heads) + " |", "|" + "---|" * len(heads)]
    return lines + ["| " + " | ".join(map(str, it)) + " |" for it in rows]


def thousands(number):
    return f"{number:,}"


def compared_table(rows):
    heads = ["crate", "version", "lines", "imports", "globs", "compared", "unknown", "by macros", "modules", "names", "differ"]
    cells = [[it.name, it.version, thousands(it.lines), it.imports, it.globs, it.compared, it.unknown, it.brought,
              it.modules, thousands(it.names), len(it.differing)] for it in rows]
    sums = [thousands(sum(getattr(it, key) for it in rows))
            for key in ("lines", "imports", "globs", "compared", "unknown", "brought", "modules", "names")]
    return table(heads, [*cells, ["all", "", *sums, sum(len(it.differing) for it in rows)]])


def time_table(rows):
    heads = ["crate", "lines read", "modules", "s", "MB", "parse ms", "expand ms", "imports ms", "MB"]
    cells = []
    for row in rows:
        passes = [row.passes.get(it, (0, 0)) for it in PASSES]
        numbers = [row.statistics.get(it, 0) for it in ("lines", "modules")]
        cells.append([row.name, *map(thousands, numbers), f"{row.seconds:.1f}", row.megabytes,
                      *(round(1000 * seconds) for seconds, _ in passes), max(size for _, size in passes)])
    return table(heads, cells)


def share(part, whole):
    return f"{100 * part / whole:.1f} %" if whole else ""


def summed(rows, key):
    """Counts of some rows, reason by reason."""
    total = Counter()
    for row in rows:
        total.update(getattr(row, key))
    return total


def items_table(rows):
    """How much `tree` shows of each crate, and why it does not show the rest."""
    reasons = [it for it, _ in summed(rows, "hidden").most_common()]
    heads = ["crate", "items", "shown", "share", *(f"({number})" for number in range(1, len(reasons) + 1))]

    def cells(name, some):
        items, shown, hidden = sum(it.items for it in some), sum(it.shown for it in some), summed(some, "hidden")
        return [name, thousands(items), thousands(shown), share(shown, items), *(thousands(hidden[it]) for it in reasons)]

    told = [f"({number}) {reason}" for number, reason in enumerate(reasons, 1)]
    return ["; ".join(told) + ".", "", *table(heads, [*(cells(it.name, [it]) for it in rows), cells("all", rows)])]


def items_beside(rows):
    """What is not among the items of modules, and what `tree` shows beside them, by reason."""
    others = [[f"rustc prints, and no module names: {it}", thousands(count)] for it, count in sorted(summed(rows, "others").items())]
    alone = [[f"`tree` shows, and rustc does not name: {it}", thousands(count)]
             for it, count in sorted(summed(rows, "items_alone").items())]
    return table(["what", "places"], others + alone)


def limits(rows):
    """What cannot be right without expansion, or is another thing by decision, with the number of places."""
    reasons = (TESTS, INJECTED, BEHIND, ATTRIBUTES, PROCEDURAL, MOVED, SINCE, BRACED)
    places = {reason: sum(it.reasons.get(reason, 0) for it in rows) for reason in reasons}
    unknown, brought = sum(it.unknown for it in rows), sum(it.brought for it in rows)
    unread = Counter()
    for row in rows:
        unread.update(row.unread)
    names, partly = sum(it.unknown_names for it in rows), sum(it.partly + it.partly_names for it in rows)
    return table(["what", "places"], [
        ["imports that lead nowhere, where a macro that is called may bring what they name: `unknown`", unknown],
        ["imports in modules that a macro brings, as those of `cfg_if!`, or in the text of its call, or in what `include!` reads: not read", brought],
        ["imports that `defmap` lists, and rustc prints nothing of, as those in bodies: not compared", sum(it.alone for it in rows)],
        ["names of the modules asked about that a macro may bring: `unknown`", names],
        ["imports and names that mean more in another namespace, by a macro: `more unknown`", partly],
        ["functions that an attribute as `#[test]` takes away, which are bound", places[TESTS]],
        ["names that a glob brings of an import that is unknown: told as absent", places[BEHIND]],
        ["names that a macro by attribute brings or takes, of a module where one stands at a `use` or an `extern` block", places[ATTRIBUTES]],
        ["names of the standard library that rustc binds in roots of edition 2015: absent", places[INJECTED]],
        ["procedural macros, of which the crates alone are compared, not the names", places[PROCEDURAL]],
        ["definitions of the standard library that stand elsewhere in rustc's than in the sources, or are of another kind there: compared by name", places[MOVED]],
        ["names of the standard library that rustc's has and that of the sources has not, or the other way", places[SINCE]],
        ["variants with braces in the libraries, which rustc 1.63 has as values and rustc 1.95 has not", places[BRACED]],
        *([f"items and imports that rustc prints: not read, {reason}", count] for reason, count in sorted(unread.items()))])


def version(rustc):
    return subprocess.run([rustc, "--version"], capture_output=True, text=True, check=False).stdout.strip()


HEAD = """# Compared with rustc over real crates

`tools/real-crates/compare --page` wrote this page: what it ran, what agrees, and how long each side took. The crates are of
Debian 12: of its packages, with their default features, and of its `rust-src`. Those of packages are compared with
{version}, though `defmap` is given the standard library of Debian's `rust-src`; `core`, `alloc` and `std` of that with
{debian}. {crates} crates have {imports} named imports and {globs} globs outside macros and bodies. Of which build the
program was, and what is proved of it, [PROGRAM.md](PROGRAM.md) tells.

Each leaf of each `use`, private ones and globs too, is compared in each namespace by kind and path with what rustc found
(`-Zunpretty=hir-tree`). Of at most eight modules of each crate, the root and those with globs first, every name is asked
that `defmap tree` or rustc could bind there, or of more than 400 as many at even distances: a probe in a copy of the
crate imports all of them, and both sides tell what each import means, so that a name that one side does not bind is
absent on the other. *Unknown* is what leads nowhere and a macro may bring; how much of each crate that may be stands in
`tools/real-crates/shares`. *By macros* are the imports in modules that a macro brings. The def maps of {supported}, with all that
they depend on, are supported ([IMPORTS.md](IMPORTS.md)).
"""

TIMES = """## Time and memory

Of `defmap tree` the seconds of a processor are told, of rustc the time by the clock of its passes `parse_crate`,
`macro_expand_crate` and `finalize_imports` (`-Ztime-passes`), of one run each, on a machine that others used too: no
ratio is promised. `defmap` reads the sources of the crate, of all that it depends on and of `core`, `alloc` and `std`,
and settles them together: lines and modules are those of all of these. rustc reads one
crate, and of the others what it kept when it compiled them. Its memory is the most that it held after one of the passes.
"""

ITEMS = """## What `tree` shows

Of all modules of each crate: the items that rustc names (`-Zunpretty=hir-tree`), with the variants of enums, constructors and
what macros write, and how many of them `defmap tree --variants` shows as declared there, by kind and name. What it does
not show is counted by reason:
"""

LIMITS = """## What cannot be right without expansion, and what is not right yet
"""


def wrapped(text):
    """Prose in lines of at most 120 characters."""
    return "\n\n".join(textwrap.fill(it, 118, break_on_hyphens=False, break_long_words=False) for it in text.split("\n\n"))


def supported(rows):
    """How many crates have supported def maps, and which have not."""
    others = ", ".join(it.name for it in rows if not it.is_supported)
    return f"{sum(it.is_supported for it in rows)} of these crates" + (f", all but {others}" if others else "")


def left_out(rows):
    """Which crates were not compared, by the reason."""
    lines = []
    for reason in sorted({it.left_out for it in rows}):
        names = [it.name for it in rows if it.left_out == reason]
        lines += [wrapped(f"Left out are {len(names)}, of each of which it is so that {reason}: {', '.join(names)}."), ""]
    return lines


def write_page(rows):
    """Writes the page, and the shares."""
    every = sorted(rows, key=lambda it: it.name)
    rows, others = ([it for it in every if bool(it.left_out) == left] for left in (False, True))
    head = HEAD.format(version=version(RUSTC), debian=version(DEBIAN_RUSTC), crates=len(rows), imports=thousands(sum(it.imports for it in rows)),
                       globs=thousands(sum(it.globs for it in rows)), supported=supported(rows))
    lines = [wrapped(head), "", *left_out(others), *compared_table(rows), "", wrapped(ITEMS), "", *items_table(rows), "",
             *items_beside(rows), "", LIMITS, *limits(rows), "", wrapped(TIMES), "", *time_table([it for it in rows if it.seconds])]
    write(PAGE, "\n".join(lines) + "\n")
    write_shares(rows)
