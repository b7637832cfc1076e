"""Random crates with what rustc says of them, each in a line of JSON: so that builds of `defmap` can
be judged by that without asking rustc again.

A line has the kind and the seed of a graph of crates, whether it was made plain, and the numbers of
what was taken away of it, by which it is made anew, with a checksum of its text; what rustc refuses
it for; and where it accepts it, of each key what rustc says, by namespaces, and why it is not
compared. A key that has neither means nothing.
"""
import hashlib
import json
import random
from dataclasses import dataclass

from asking import Theirs, probes_of
from crate_model import plain, without, written
from judging import Wrong
from random_imports import imports_graph
from random_macros import macros_graph
from random_rules import rules_graph

KINDS = {"imports": imports_graph, "macros": macros_graph, "rules": rules_graph}


@dataclass
class Gathered:
    """A graph of crates and what rustc says of it."""

    kind: str
    seed: int
    is_plain: bool
    taken: list  # in rounds, the numbers of what was taken away
    graph: object
    theirs: object

    @property
    def title(self):
        """The kind and the seed, and how often something was taken away."""
        words = [self.kind, str(self.seed), *["plain"] * self.is_plain]
        return " ".join(words + [f"repaired:{len(self.taken)}"] * bool(self.taken))


def made(kind, seed, is_plain, taken=()):
    """The crates of a seed without what was taken away, round by round."""
    graph = KINDS[kind](random.Random(f"{kind} {seed}"), seed)
    graph = plain(graph) if is_plain else graph
    for numbers in taken:
        graph = without(graph, set(numbers))
    return graph


def checksum(graph):
    """That of the files of a graph, with probes."""
    files = [written(it, probes_of(graph) if it is graph.main else None).files
             for it in graph.crates]
    return hashlib.sha256(json.dumps(files).encode()).hexdigest()[:16]


def word_of(key):
    """A key as a text: the number of a leaf, or who asks, of which module, of which name."""
    return " ".join(key) if isinstance(key, tuple) else str(key)


def key_of(word):
    return tuple(word.split(" ")) if " " in word else int(word)


def line_of(one):
    """The line that has a graph and what rustc says."""
    theirs = one.theirs
    said = {"kind": one.kind, "seed": one.seed, "plain": one.is_plain, "taken": one.taken,
            "sum": checksum(one.graph), "codes": theirs.codes, "lints": sorted(theirs.lints)}
    said["meant"] = {word_of(key): meant for key, meant in theirs.meant.items() if meant != {}}
    said["left out"] = {word_of(key): why for key, why in theirs.left_out.items()}
    return json.dumps(said, separators=(",", ":")) + "\n"


def head_of(line):
    """The kind and the seed of a line, and whether the crates were made plain."""
    said = json.loads(line)
    return said["kind"], said["seed"], said["plain"]


def read_line(line):
    """A graph, made anew, and what rustc says of it."""
    said = json.loads(line)
    head = (said["kind"], said["seed"], said["plain"], said["taken"])
    graph = made(*head)
    if checksum(graph) != said["sum"]:
        raise Wrong(f"{said['kind']} {said['seed']}: another text is made of the seed than was")
    theirs = Theirs(codes=said["codes"], lints=set(said["lints"]))
    if not theirs.codes:
        theirs.meant = dict.fromkeys(written(graph.main, probes_of(graph)).places, {})
    for word, meant in said["meant"].items():
        theirs.meant[key_of(word)] = meant and {space: tuple(it) for space, it in meant.items()}
    theirs.left_out = {key_of(word): why for word, why in said["left out"].items()}
    return Gathered(*head, graph, theirs)
