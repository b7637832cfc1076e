"""Asks rustc what the modules of each crate of a graph bind, seen from within the crate and from
another crate.

Modules and enums are named by their paths, the crate's name first; `()` asks from another crate.
"""
import functools
import tempfile
from dataclasses import dataclass, field

import rustc_answers
from asking import Theirs, ask_of_last, item_names, leave_out, of_keys, refused, write_files
from crate_model import Crate, Graph, Item, Module, Probe, Use, modules_of, written
from random_borders import AROUND
from random_imports import MODULES, NAMES
from random_macros import MACROS

VIEWER = Crate("viewer", "2021", [Item(0, "", "extern crate", "alloc", ";")])
# Names that are asked of the standard library: those by which it is walked, and those of random
# crates.
STANDARD_NAMES = {"alloc", "clone", "core", "fmt", "option", "prelude", "std", "v1", "vec", "B",
                  "Error", "None", "rust_2015", "rust_2018", "rust_2021", "rust_2024"}
STANDARD_NAMES |= {*NAMES, *MODULES, *MACROS, *AROUND}
STANDARD = ("core", "alloc", "std")


@dataclass
class Said:
    """What rustc says of a crate: by who asks, of which module, of which name."""

    theirs: Theirs
    ways: dict = field(default_factory=dict)  # how another crate reaches modules

    def add(self, outside, crate):
        """Adds what is seen of a crate from outside."""
        self.ways.update({it: way for it, way in outside.ways.items() if it[0] == crate})
        for own, theirs in ((self.theirs.meant, outside.theirs.meant),
                            (self.theirs.left_out, outside.theirs.left_out)):
            own.update({key: it for key, it in theirs.items() if key[1][0] == crate})


def segments_in(tree):
    inner = [segments_in(it) for it in tree.inner or ()]
    return set(tree.segments).union(*inner)


def names_of(graph):
    """All names that modules of a graph could bind, and those that paths have."""
    names = set()
    for crate in graph.crates:
        for _, items in modules_of(crate):
            for item in items:
                names |= item_names(item)
                names |= segments_in(item.tree) if isinstance(item, Use) else set()
    return sorted(names - {"", "_", "self", "crate", "super"})


def probes_within(crate, names):
    """What is asked within a crate: of each module all names, from it and from those around it."""
    modules, probes = [(crate.name, *path) for path, _ in modules_of(crate)], {}
    for number, viewer in enumerate(modules):
        asked = []
        for module in modules:
            if module[: len(viewer)] == viewer:
                words = "super" if module == viewer else "::".join(("crate", *module[1:]))
                asked.append((words, [((viewer, module, it), it) for it in names]))
        probes[viewer[1:]] = [Probe(f"__probe{number}", asked)]
    return probes


def ask_viewer(graph, folder, ways, names):
    """What another crate finds, which knows those of a graph, by ways to modules."""
    seen = Graph([*graph.crates, VIEWER], graph.kind, graph.seed)
    asked = [(way, [(((), module, it), it) for it in names]) for module, way in ways.items()]
    probed = written(VIEWER, {(): [Probe("__probe", asked)]})
    write_files(folder, probed.files)
    answers = rustc_answers.answers(seen, folder)
    theirs = Theirs(meant=of_keys(seen, probed, answers))
    leave_out(theirs, probed, answers)
    return theirs


def public_modules(crate):
    """How another crate reaches the modules of a crate of which all around are public, too."""
    ways, left = {(crate.name,): f"::{crate.name}"}, [((crate.name,), crate.items)]
    while left:
        path, items = left.pop()
        for item in items:
            if isinstance(item, Module) and item.visibility == "pub":
                ways[*path, item.name] = "::".join(("", *path, item.name))
                left.append(((*path, item.name), item.items))
    return ways


def ask_outside(graph, folder, names, said, kinds, left):
    """Adds what another crate finds in all modules that it reaches, of which some are given."""
    crates = {it[0] for it in left}
    while left:
        said.ways.update(left)
        found = ask_viewer(graph, folder, left, names)
        said.theirs.meant.update(found.meant)
        said.theirs.left_out.update(found.left_out)
        left = {}
        for (_, module, name), meant in found.meant.items():
            kind, path = (meant or {}).get("type", ("", ""))
            inner = tuple(path.split("::"))
            if kind in kinds and inner[0] in crates and inner not in said.ways:
                left.setdefault(inner, f"{said.ways[module]}::{name}")


@functools.lru_cache(maxsize=1)
def standard():
    """What another crate finds in the standard library. Its enums are asked, too."""
    said = Said(Theirs())
    with tempfile.TemporaryDirectory(prefix="random-crates-") as folder:
        names, ways = sorted(STANDARD_NAMES), {(it,): f"::{it}" for it in STANDARD}
        ask_outside(Graph([], "", 0), folder, names, said, ("mod", "enum"), ways)
    return said


def build(graph, folder):
    """Builds the last crate of a graph for others; gives what rustc refuses."""
    bare = written(graph.main)
    write_files(folder, bare.files)
    errors = rustc_answers.build(graph, graph.main, folder)
    return refused(bare, errors) if errors else None


def refusal_of(graph, folder):
    """Why rustc refuses a crate of a graph, if it does. What is not refused is built."""
    for number in range(len(graph.crates)):
        refusal = build(part_of(graph, number), folder)
        if refusal:
            return refusal
    return None


def part_of(graph, number):
    return Graph(graph.crates[: number + 1], graph.kind, graph.seed, graph.cfgs)


def ask_crates(graph, folder, is_seen_outside=True):
    """What rustc says of each crate of a graph, by name, where all are built in a folder. It takes
    less to ask from within alone."""
    names, crates = names_of(graph), {}
    for number, crate in enumerate(graph.crates):
        part = part_of(graph, number)
        crates[crate.name] = Said(ask_of_last(part, folder, probes_within(crate, names)))
    if is_seen_outside:
        outside, ways = Said(Theirs()), {}
        for crate in graph.crates:
            ways.update(public_modules(crate))
        ask_outside(graph, folder, names, outside, ("mod",), ways)
        for name, said in crates.items():
            said.add(outside, name)
    return crates
