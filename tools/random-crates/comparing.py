"""Compares what rustc and `defmap` say of a graph of crates, and makes small what differs."""
import random
import tempfile
from dataclasses import dataclass, field

from asking import AMBIGUOUS, WARNED, ask_both, ask_rustc
from crate_model import Use, item_lists, reordered, without

# In how many orders rustc is asked again where something differs: reversed, then shuffled.
ORDERS = 4
UNKNOWN = "unknown to defmap"


@dataclass
class Outcome:
    """How the answers about a graph compare."""

    graph: object
    theirs: object
    ours: object
    compared: int = 0
    reasons: dict = field(default_factory=dict)
    differing: dict = field(default_factory=dict)  # by key: what rustc says, and what defmap says
    moved: dict = field(default_factory=dict)  # where rustc answers by order
    unstable: set = field(default_factory=set)  # the keys of all that rustc answers by order

    @property
    def word(self):
        if self.ours.fault:
            return self.ours.fault if self.ours.fault == "hung" else "failed"
        if self.theirs.codes:
            return "refused"
        if self.differing:
            return "warned" if "ambiguous_glob_imports" in self.theirs.lints else "differ"
        return "order-dependent" if self.moved else "equal"


def by_ours(meant):
    """How `defmap` has a name that is ambiguous by rustc, or of which it warns."""
    if meant is None:
        return ", and `defmap` lists it not"
    if "ambiguous" in meant:
        return ", and so by `defmap`"
    return ", and by `defmap` a definition" if meant else ", and by `defmap` nothing that is seen"


def compared(theirs, ours):
    """The keys that are compared, why others are not, and what differs."""
    reasons, differing, count = {}, {}, 0
    for key, meant in theirs.meant.items():
        reason = theirs.left_out.get(key)
        if not reason and key in ours.unknown:
            reason = UNKNOWN
        if reason:
            word = f"{reason}{by_ours(ours.meant.get(key)) if reason in (AMBIGUOUS, WARNED) else ''}"
            reasons[word] = reasons.get(word, 0) + 1
            continue
        count += 1
        mine = ours.meant.get(key)
        if mine != meant:
            differing[key] = (meant, mine)
        elif meant is not None and isinstance(key, tuple) and key[0] == key[1]:
            bound = ours.bound.get(tuple(it.replace("r#", "") for it in key[1:]), set())
            if bound != set(meant):
                differing[key] = (meant, {it: ("bound", "by tree") for it in bound})
    return count, reasons, differing


def ways_of(outcome):
    """In what ways an outcome differs: the namespace, what rustc says and what `defmap` says."""
    ways = set()
    for theirs, ours in outcome.differing.values():
        for space in set(theirs or ()) | set(ours or ()):
            one, other = (it.get(space) if it else it for it in (theirs, ours))
            if one != other:
                kinds = tuple(it[0] if it else "nothing" for it in (one, other))
                same = " of another path" if kinds[0] == kinds[1] else ""
                ways.add(f"{space}: {kinds[0]} by rustc, {kinds[1]}{same} by defmap")
    return ways


def outcome_of(program, graph):
    """Compares a graph; where something differs, rustc is asked again with the items in other
    orders."""
    theirs, ours = ask_both(program, graph)
    outcome = Outcome(graph, theirs, ours)
    if theirs.codes or ours.fault:
        return outcome
    outcome.compared, outcome.reasons, outcome.differing = compared(theirs, ours)
    for number in range(ORDERS if outcome.differing else 0):
        if outcome.differing:
            ask_in_order(outcome, number)
    return outcome


def ask_in_order(outcome, number):
    """Moves what rustc answers otherwise in another order from what differs."""
    for key in by_order(outcome, number) & set(outcome.differing):
        outcome.moved[key] = outcome.differing.pop(key)


def by_order(outcome, number):
    """The keys of what rustc answers otherwise in an order of the items."""
    shuffle = random.Random(number).shuffle if number else list.reverse
    with tempfile.TemporaryDirectory(prefix="random-crates-") as folder:
        again = ask_rustc(reordered(outcome.graph, shuffle), folder)
    return {key for key, meant in outcome.theirs.meant.items()
            if again.codes or key in again.left_out or again.meant.get(key) != meant}


def note_unstable(outcome):
    """Notes all that rustc answers otherwise in some orders."""
    if outcome.word in ("equal", "differ"):
        outcome.unstable = set().union(*(by_order(outcome, it) for it in range(ORDERS)))


def refused_numbers(graph, theirs):
    """The numbers of what rustc refuses in a graph: of leaves, where it refuses any."""
    leaves = {leaf.number for items in item_lists(graph) for item in items if isinstance(item, Use)
              for leaf in item.tree.leaves()}
    numbers = set(theirs.refused)
    return numbers & leaves or numbers


def repaired(graph, theirs):
    """A graph without what rustc refuses, as far as that is known."""
    return without(graph, refused_numbers(graph, theirs))


def outcomes_of(program, graph, rounds):
    """How a graph compares. Where rustc refuses it, what it refuses is taken away, in so many
    rounds, until it accepts the rest: each graph is compared, the last one last. `defmap` has to
    end on each."""
    found = [outcome_of(program, graph)]
    while len(found) <= rounds and found[-1].word == "refused" and found[-1].theirs.refused:
        found.append(outcome_of(program, repaired(found[-1].graph, found[-1].theirs)))
    return found


def shown_key(key, places):
    if isinstance(key, tuple):
        viewer, module, name = key
        return f"{module}::{name}" + (f" from {viewer}" if viewer != module else "")
    return "import at " + ":".join(map(str, places.get(key, ("?",))))


def shown_meant(meant):
    if meant is None:
        return "not listed"
    return ", ".join(f"{it} {' '.join(meant[it])}" for it in sorted(meant)) or "nothing"


def shown_differing(differing, places):
    """The lines that tell what differs."""
    return [f"{shown_key(key, places)}: rustc: {shown_meant(theirs)}; defmap: {shown_meant(ours)}"
            for key, (theirs, ours) in sorted(differing.items(), key=lambda it: str(it[0]))]
