"""What `defmap` says of the imports of a crate, and where rustc says otherwise."""
from dataclasses import dataclass, field, replace
from os.path import normpath

from rustc_tree import Meant

# Why a leaf may mean something else by rustc than by `defmap`, or nothing that `defmap` can know.
TESTS = "tests"
INJECTED = "injected crates"
BEHIND = "unknown names behind globs"
ATTRIBUTES = "attributes of imports"
SINCE = "names that one of two standard libraries has"
# What is forgiven of a leaf that else means the same.
BRACED = "variants with braces, which the older rustc has as values"
MOVED = "definitions of the library that stood elsewhere in its sources"
LIBRARIES = ("core", "alloc", "std")
PROCEDURAL = "procedural macros by their crates alone"


@dataclass
class Known:
    """What is known to be another thing without expansion."""

    procedural: set  # the crates of procedural macros
    tests: set  # the paths of functions that attributes as `#[test]` take away
    injected: set  # what rustc binds in the root of a crate of edition 2015, though nothing there says so
    rewritten: set  # the modules with a `use` that an attribute macro may rewrite
    is_library: bool = False  # whether the crate is of the standard library, and compared with the rustc of its version
    behind: set = field(default_factory=set)  # the probes of names that globs bring of unknown imports


@dataclass
class Ours:
    """What `defmap` says of an import."""

    meant: set = field(default_factory=set)
    is_unknown: bool = False
    is_builtin: bool = False  # a builtin type, too
    has_more: bool = False  # perhaps, in other namespaces, by macros


@dataclass
class Outcome:
    """How some leaves compare."""

    compared: int = 0
    unknown: int = 0
    partly: int = 0
    brought: int = 0
    reasons: dict = field(default_factory=dict)
    differing: list = field(default_factory=list)

    def count(self, reason):
        self.reasons[reason] = self.reasons.get(reason, 0) + 1


def meant_by(part, own):
    """What a part of a line tells: a namespace, a kind and a path, which is `crate::..` of the crate itself."""
    namespace, kind, path = part.split(" ", 2)
    if path == "crate" or path.startswith("crate::"):
        path = own + path[len("crate") :]
    return Meant(namespace, kind, path)


def imports(printed, own):
    """What each import means by `defmap imports`, by where it begins."""
    found = {}
    for line in printed.splitlines():
        place, _, told = line.partition(": ")
        if place.count(":") < 2:
            continue
        path, row, column = place.rsplit(":", 2)
        one = found.setdefault((normpath(path), int(row), int(column)), Ours())
        for part in told.split("; ")[1:]:
            if part.startswith("unknown, by "):
                one.is_unknown = True
            elif part.startswith("private "):
                continue
            elif part == "more unknown":
                one.has_more = True
            elif " builtin " in part:
                one.is_builtin = True
            else:
                one.meant.add(meant_by(part, own))
    return found


def unresolved(found):
    """The places of the imports that lead nowhere and are not told as unknown."""
    return sorted(where for where, one in found.items() if not (one.meant or one.is_builtin or one.is_unknown))


def by_crates(meant, procedural):
    """Procedural macros by their crates alone: of a derive rustc tells the function, and not the name."""
    return {replace(it, path=it.path.split("::")[0]) if it.kind == "macro" and it.path.split("::")[0] in procedural else it
            for it in meant}


def is_of_library(meant):
    return meant.path.split("::")[0] in LIBRARIES


def without_library(meant):
    """What is meant outside of the standard library, of which rustc has a later one than the sources are of."""
    return {it for it in meant if not is_of_library(it)}


def library_names(meant):
    """The definitions of the standard library by their names alone, as they moved, or became types of their own."""
    return {(it.namespace, it.path.rpartition("::")[2]) for it in meant if is_of_library(it)}


def without_braced(theirs, ours):
    """What rustc found, without the values of variants that are types alone: rustc 1.63 has such of those with braces."""
    return {it for it in theirs if it in ours or (it.namespace, it.kind) != ("value", "variant")
            or replace(it, namespace="type") not in ours}


def reason_by_module(home, known):
    """Why a module has other names by rustc; None where that is not known. A probe stands within the module."""
    modules = {home, home.rpartition("::")[0]}
    return ATTRIBUTES if modules & known.rewritten else None


def reason_for(where, theirs, ours, known):
    """Why rustc's meaning is known to be another one; None where that is not known."""
    if not ours and where in known.behind:
        return BEHIND
    if not ours and theirs and theirs <= known.injected:
        return INJECTED
    return TESTS if theirs == {it for it in ours if it.kind != "fn" or it.path not in known.tests} else None


def injected(options):
    """What rustc binds in the root of a crate that is compiled with some options: the crate of the standard library."""
    names = ("compiler_builtins", "core", "std") if "--edition=2015" in options else ()
    return {Meant("type", "mod", it) for it in names}


def is_part(meant, whole):
    """Whether something is all that is meant in its namespaces."""
    return bool(meant) and meant == {it for it in whole if it.namespace in {one.namespace for one in meant}}


def shown(where):
    return ":".join(map(str, where))


def compare(leaves, ours, known, is_brought=lambda where, leaf: False):
    """Compares leaves, by where they begin, with what `defmap` says of them."""
    outcome = Outcome()
    for where, leaf in sorted(leaves.items()):
        one = ours.get(where)
        if one is None and is_brought(where, leaf):
            outcome.brought += 1
        elif one is not None and not one.meant and one.is_unknown:
            outcome.unknown += 1
        else:
            compare_leaf(outcome, where, leaf, one, known)
    return outcome


def compare_leaf(outcome, where, leaf, one, known):
    """Compares a leaf that is known."""
    outcome.compared += 1
    theirs, meant = (by_crates(it, known.procedural) for it in (leaf.meant, one.meant if one else set()))
    if one is not None and meant == theirs:
        if one.meant != leaf.meant:
            outcome.count(PROCEDURAL)
        return
    if one is not None and known.is_library and meant == without_braced(theirs, meant):
        outcome.count(BRACED)
        return
    if one is not None and not known.is_library and without_library(meant) == without_library(theirs):
        outcome.count(MOVED if library_names(meant) == library_names(theirs) else SINCE)
        return
    if one is not None and one.has_more and is_part(meant, theirs):
        outcome.partly += 1
        return
    reason = reason_for(where, theirs, meant, known) or reason_by_module(leaf.home, known)
    if reason:
        outcome.count(reason)
        return
    more, less = (sorted(f"{it.namespace} {it.kind} {it.path}" for it in them)
                  for them in (theirs - meant, meant - theirs))
    outcome.differing.append(f"{shown(where)} {leaf.name or '*'}: {more} and not {less}{'' if one else ', not listed'}")
