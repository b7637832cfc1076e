"""Makes small what differs: takes away items and leaves, then what is not plain, as long as it
differs."""
import copy

from comparing import outcome_of
from crate_model import Module, Use, item_lists, numbers_of, without


class Shrinker:
    """Looks for smaller graphs with the same outcome, in at most so many steps."""

    def __init__(self, program, outcome, steps):
        self.program, self.outcome, self.steps = program, outcome, steps

    def tries(self, graph):
        """Whether a smaller graph has the same outcome; it is kept then."""
        if self.steps <= 0:
            return False
        self.steps -= 1
        one = outcome_of(self.program, graph)
        if one.word == self.outcome.word:
            self.outcome = one
        return one is self.outcome

    def take_away(self):
        """Takes away items and leaves, at first many at once; gives whether any were."""
        numbers, found = numbers_of(self.outcome.graph), False
        size = len(numbers) // 2
        while size and self.steps > 0:
            place = 0
            while place < len(numbers):
                some = set(numbers[place: place + size])
                if self.tries(without(self.outcome.graph, some)):
                    found, left = True, set(numbers_of(self.outcome.graph))
                    numbers = numbers[:place] + [it for it in numbers[place:] if it in left]
                else:
                    place += size
            size //= 2
        return found

    def make_plain(self):
        """Makes items, crates and editions plainer; gives whether any were."""
        found, number, changes = False, 0, list(plainer(self.outcome.graph))
        while number < len(changes) and self.steps > 0:
            graph = copy.deepcopy(self.outcome.graph)
            changes[number](graph)
            if self.tries(graph):
                found, changes = True, list(plainer(graph))
            else:
                number += 1
        return found


def item_changes(item):
    """What makes an item plainer, each as names and values of its fields."""
    if item.visibility not in ("", "pub"):
        yield {"visibility": "pub"}
    if isinstance(item, Module) and item.file:
        others = [it for it in item.attributes if not it.startswith("#[path")]
        yield {"file": "", "attributes": others}
    if isinstance(item, Module) and item.begins:
        yield {"begins": []}
    for number in range(len(item.attributes)):
        if not item.attributes[number].startswith("#[path"):
            yield {"attributes": item.attributes[:number] + item.attributes[number + 1:]}
    if item.before == "enum":
        variants = item.behind.strip(" {}").split(", ")
        yield from ({"behind": f" {{ {it} }}"} for it in variants if len(variants) > 1)


def set_fields(item, fields):
    for name, value in fields.items():
        setattr(item, name, value)


def plainer(graph):
    """Changes that make a graph plainer by a bit each."""
    for place, items in enumerate(item_lists(graph)):
        for number, item in enumerate(items):
            for fields in item_changes(item):
                yield lambda it, place=place, number=number, fields=fields: set_fields(
                    item_lists(it)[place][number], fields)
    for number, crate in enumerate(graph.crates):
        if crate.edition != "2021":
            yield lambda it, number=number: setattr(it.crates[number], "edition", "2021")
        if crate.attributes:
            yield lambda it, number=number: setattr(it.crates[number], "attributes", [])
        if not crate.items and crate is not graph.main:
            yield lambda it, number=number: it.crates.pop(number)


def shrunk(program, outcome, steps):
    """An outcome with as little as possible that still differs, or does not end."""
    it = Shrinker(program, outcome, steps)
    while it.steps > 0 and (it.take_away() or it.make_plain()):
        pass
    return it.outcome
