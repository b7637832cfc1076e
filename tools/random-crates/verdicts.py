"""Judges what `defmap` says of gathered crates by what rustc says."""
import tempfile
from dataclasses import dataclass, field

from asking import (SUPPORTED, Ours, add_bound, add_imports, ask_rustc, note_bound, options_of,
                    probes_of, run, write_files)
from comparing import compared
from crate_model import written
from judging import Wrong
from orders import orders

SAYS_OTHERWISE = "rustc says otherwise in another order of the items"
DOES_NOT_TELL = "rustc does not tell it in another order of the items"
REFUSES = "rustc refuses the crates in another order of the items"
# The kinds of crates that are one file, and need no other crate and no option.
ALONE = ("imports", "macros")
WARNING = "ambiguous_glob_imports"
WARNS = f"rustc warns of an ambiguous name of the crates ({WARNING})"
OF_OTHERS = "rustc says otherwise of other names in another order of the items"
KEPT = "rustc keeps it in each order"
TWO_THINGS = "rustc says one thing to the module and another to one around it"


@dataclass
class Said:
    """What `defmap` says of a gathered graph."""

    one: object
    ours: object
    is_supported: bool  # without probes


@dataclass
class Verdict(Said):
    """What `defmap` says of a graph, and how it compares."""

    compared: int = 0
    reasons: dict = field(default_factory=dict)  # how many are not compared, by why
    differing: dict = field(default_factory=dict)  # by key, what both say
    why: dict = field(default_factory=dict)  # by key, how rustc answers in other orders


def write_graph(graph, folder, probes):
    """Writes the files of a graph, the last crate with probes; gives what wrote that."""
    for crate in graph.crates:
        writer = written(crate, probes if crate is graph.main else None)
        write_files(folder, writer.files)
    return writer


def ask(program, one):
    """What `defmap` says of a graph: what it binds and whether that is supported without probes,
    and where rustc accepts the crates what each import means with them."""
    ours, graph = Ours(), one.graph
    with tempfile.TemporaryDirectory(prefix="judge-") as folder:
        write_graph(graph, folder, None)
        options = options_of(graph, folder)
        add_bound(ours, program, folder, options, graph.main.root)
        is_supported = ours.is_supported
        if not one.theirs.codes and not ours.fault:
            places = write_graph(graph, folder, probes_of(graph)).places
            keys = {place: key for key, place in places.items()}
            add_imports(ours, program, folder, options, graph.main.root, keys)
    return Said(one, ours, is_supported)


def fixture_of(graphs, folder, has_probes):
    """Writes crates that stand alone into one fixture, each under a name with its number; gives
    their keys, with the number, by places."""
    text, keys = [], {}
    for number, graph in enumerate(graphs):
        name, writer = name_of(number), written(graph.main, has_probes and probes_of(graph))
        text.append(f"//- /{name}.rs crate:{name} edition:{graph.main.edition}\n")
        text.append(writer.files[graph.main.root])
        keys.update({(f"{name}.rs", *place[1:]): (number, key)
                     for key, place in writer.places.items()})
    write_files(folder, {"all": "".join(text)})
    return keys


def name_of(number):
    return f"alone{number}"


def as_main(number, meant):
    """What is meant, where a crate has its own name again."""
    own = name_of(number)
    return {space: (kind, "::".join(["main" if it == own else it for it in path.split("::")]))
            for space, (kind, path) in meant.items()}


def ask_together(program, ones):
    """What `defmap` says of crates that stand alone, run on all of them at once; None where it
    fails or some are not supported."""
    ours, found = Ours(), [Said(it, Ours(is_supported=True), True) for it in ones]
    accepted = [it for it in found if not it.one.theirs.codes]
    with tempfile.TemporaryDirectory(prefix="judge-") as folder:
        fixture_of([it.graph for it in ones], folder, False)
        printed, told, fault = run(program, folder, "tree", [], "--fixture=all")
        if fault or SUPPORTED not in told:
            return None
        for number, part in enumerate(f"\n{printed}".split("\ncrate ")[1:]):
            note_bound(found[number].ours, part.partition("\n")[2])
        if accepted:
            keys = fixture_of([it.one.graph for it in accepted], folder, True)
            add_imports(ours, program, folder, [], "--fixture=all", keys)
    for (number, key), meant in ours.meant.items():
        accepted[number].ours.meant[key] = as_main(number, meant)
    for number, key in ours.unknown:
        accepted[number].ours.unknown.add(key)
    return None if accepted and (ours.fault or not ours.is_supported) else found


def ask_all(program, ones):
    """What `defmap` says of graphs. It is run on many that stand alone at once, and where that fails
    or some are not supported, on fewer."""
    are_alone = all(it.kind in ALONE for it in ones)
    found = ask_together(program, ones) if are_alone and len(ones) > 1 else None
    if found is None and len(ones) > 1:
        half = len(ones) // 2
        return ask_all(program, ones[:half]) + ask_all(program, ones[half:])
    return found or [ask(program, it) for it in ones]


def changes_in(other, theirs):
    """How rustc answers of other orders than it did: by key, what is said otherwise; and of all
    that is asked, why."""
    with tempfile.TemporaryDirectory(prefix="judge-") as folder:
        try:
            again = ask_rustc(other, folder)
        except Wrong:
            return {}
    if again.codes:
        return dict.fromkeys(theirs.meant, REFUSES)
    changed = {key: SAYS_OTHERWISE for key, it in theirs.meant.items() if again.meant.get(key) != it}
    changed.update({key: DOES_NOT_TELL for key in again.left_out if key not in theirs.left_out})
    return changed


def is_of_two(theirs, key):
    """Whether rustc finds another definition by a name in its module than from a module around it:
    an import that few see, determined late, does not hide a glob's name there."""
    if not isinstance(key, tuple) or key[0] == key[1]:
        return False
    own, outer = theirs.meant.get((key[1], *key[1:])) or {}, theirs.meant[key] or {}
    return any(outer[space] != own[space] for space in set(own) & set(outer))


def note_orders(verdict, count):
    """Notes of each key that differs how rustc answers when the items stand in other orders."""
    theirs, others = verdict.one.theirs, False
    verdict.why = {key: TWO_THINGS for key in verdict.differing if is_of_two(theirs, key)}
    left = set(verdict.differing) - set(verdict.why)
    for other in orders(verdict.one.graph, count):
        if not left:
            break
        changed = changes_in(other, theirs)
        verdict.why.update({key: changed[key] for key in left & set(changed)})
        others |= bool(changed)
        left -= set(changed)
    why = WARNS if WARNING in theirs.lints else OF_OTHERS if others else KEPT
    verdict.why.update(dict.fromkeys(left, why))


def judged(said, count):
    """The verdict of what `defmap` says; rustc is asked again in so many orders at most."""
    verdict = Verdict(said.one, said.ours, said.is_supported)
    if not said.one.theirs.codes and not said.ours.fault:
        verdict.compared, verdict.reasons, verdict.differing = compared(said.one.theirs, said.ours)
        note_orders(verdict, count)
    return verdict
