"""Orders of the items of crates in which each name means the same, if that does not depend on
order."""
import copy
import random

from around_modules import Around
from crate_model import Use, item_lists, reordered

# How many shuffles are tried for one in which each import stands behind the same macros.
TRIES = 100
# What keeps its order: macros of one name have numbers by it, and of crates with macros the last
# one counts.
KEPT = ("macro_rules!", "extern crate")


def textual_of(graph):
    """What textual macros the imports of a graph could mean: by the numbers of their leaves."""
    found = {}
    for crate in graph.crates:
        around = Around(graph, crate)
        found[crate.name] = around.macro_roots
        for items in item_lists(graph):
            for item in items:
                for leaf in item.tree.leaves() if isinstance(item, Use) else ():
                    if item.number in around.textual and leaf.segments:
                        macros = around.textual[item.number]
                        found[leaf.number] = macros.get(leaf.segments[0])
    return found


def shuffled(graph, shuffle):
    """A copy of a graph whose items stand in any order, but for macros and their crates."""
    graph = copy.deepcopy(graph)
    for items in item_lists(graph):
        kept = [it for it in items if it.is_fixed and it.before in KEPT]
        shuffle(items)
        places = [number for number, it in enumerate(items) if it.is_fixed and it.before in KEPT]
        for number, it in zip(places, kept):
            items[number] = it
    return graph


def orders(graph, count):
    """Graphs with the items in other orders: reversed between what is fixed, then shuffled there,
    or all, so that each import stands behind the same macros."""
    yield reordered(graph, list.reverse)
    textual = textual_of(graph)
    for number in range(1, count):
        shuffle = random.Random(number).shuffle
        if number % 2:
            yield reordered(graph, shuffle)
            continue
        for _ in range(TRIES):
            other = shuffled(graph, shuffle)
            if textual_of(other) == textual:
                yield other
                break
