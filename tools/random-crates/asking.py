"""Asks rustc and `defmap` about a graph of crates: what each leaf means, and what modules bind, by
probes."""
import os
import subprocess
import tempfile
from dataclasses import dataclass, field

import rustc_answers
from crate_model import Probe, Use, modules_of, written
from judging import Wrong
from real_answers import meant_by
from real_scopes import trees
from rustc_answers import without_numbers

SECONDS = 10
NAMES = 24
SUPPORTED = "\nsupported: yes\n"
# What random crates name of the standard library; rustc has its own.
LIBRARY = f"{os.path.dirname(os.path.abspath(__file__))}/library"
# The lints by which rustc warns that what a name means may change.
ABOUT_MEANING = {"ambiguous_glob_imports", "ambiguous_import_visibilities",
                 "ambiguous_panic_imports", "ambiguous_glob_imported_traits",
                 "pub_use_of_private_extern_crate"}
AMBIGUOUS = "ambiguous by rustc (E0659 at a probe)"
WARNED = "rustc warns that it is ambiguous"
# It is refused by default, but not where lints are capped.
PRIVATE_CRATE = "rustc shows a private extern crate, with the lint pub_use_of_private_extern_crate"
CHANGED = "rustc's answer changes with probes"
UNDETERMINED = "rustc cannot determine a probe"


class Panicked(Wrong):
    """rustc panics, where it should tell what names mean."""


@dataclass
class Theirs:
    """What rustc says of a graph."""

    codes: list = field(default_factory=list)  # why it is refused
    texts: list = field(default_factory=list)  # of the errors
    refused: dict = field(default_factory=dict)  # codes by items and leaves
    meant: dict = field(default_factory=dict)  # by key: of each namespace the kind and the path
    left_out: dict = field(default_factory=dict)  # by key: why it is not compared
    lints: set = field(default_factory=set)


@dataclass
class Ours:
    """What `defmap` says of a graph."""

    meant: dict = field(default_factory=dict)  # by key: of each namespace the kind and the path
    unknown: set = field(default_factory=set)
    bound: dict = field(default_factory=dict)  # by module and name, in which namespaces it is bound
    is_supported: bool = False
    fault: str = ""


def write_files(folder, files):
    for path, text in files.items():
        os.makedirs(os.path.dirname(f"{folder}/{path}"), exist_ok=True)
        with open(f"{folder}/{path}", "w", encoding="utf-8") as it:
            it.write(text)


def names_in(graph):
    """The names that the modules of a graph could bind."""
    names = set()
    for crate in graph.crates:
        for _, items in modules_of(crate):
            for item in items:
                names |= item_names(item)
    return sorted(names - {"", "_", "self", "crate", "super"})[:NAMES]


def item_names(item):
    if item.before == "extern crate":
        return {item.name, item.behind.strip(" ;").rpartition(" ")[2]}
    if not isinstance(item, Use):
        variants = item.behind.strip(" {}").split(", ") if item.before == "enum" else []
        return {item.name} | {it.split("(")[0].split(" ")[0] for it in variants}
    return {it.rename or (it.segments or [""])[-1] for it in item.tree.leaves()}


def path_words(path):
    return "::".join(("crate",) + path)


def probes_of(graph):
    """What is asked: of each module all names, from within it and from the modules around it; and
    of other crates."""
    names, probes = names_in(graph), {}
    modules = [path for path, _ in modules_of(graph.main)]
    for number, viewer in enumerate(modules):
        asked = []
        for path in modules:
            if path[: len(viewer)] == viewer:
                words = "super" if path == viewer else path_words(path)
                key = path_words(viewer), path_words(path)
                asked.append((words, [((*key, it), it) for it in names]))
        probes[viewer] = [Probe(f"__probe{number}", asked)]
    for crate in graph.crates[:-1]:
        for path, _ in modules_of(crate):
            words = "::".join((crate.name,) + path)
            probes[()][0].asked.append((f"::{words}", [(("crate", words, it), it) for it in names]))
    return probes


def by_items(writer, errors):
    """The codes of errors by the numbers of the items in whose rows they are."""
    found = {}
    for error in errors:
        for file, row, column in error.places:
            if (file, row) in writer.rows:
                found.setdefault(writer.rows[file, row], set()).add(error.code)
            for key, place in writer.places.items():
                if place == (file, row, column):
                    found.setdefault(key, set()).add(error.code)
    return found


def refused(writer, errors):
    texts = [f"{it.places}: {it.text}" for it in errors]
    return Theirs(sorted({it.code for it in errors}), texts, by_items(writer, errors))


def of_keys(graph, writer, answers):
    """What rustc says by keys; None of what a `cfg` takes away."""
    if any(it.code == rustc_answers.PANICS for it in answers.errors):
        raise Panicked(f"{rustc_answers.PANICS} over {graph.main.name}")
    lost = [key for key, place in writer.places.items() if place not in answers.meant]
    if lost and not graph.cfgs:
        raise Wrong(f"rustc prints no meaning of {lost[:5]}")
    return {key: answers.meant.get(place) for key, place in writer.places.items()}


def ask_rustc(graph, folder):
    """What rustc says of a graph, of a folder for the files; macros of one name in a module are not
    told apart."""
    for crate in graph.crates[:-1]:
        writer = written(crate)
        write_files(folder, writer.files)
        errors = rustc_answers.build(graph, crate, folder)
        if errors:
            return refused(writer, errors)
    theirs = ask_of_last(graph, folder, probes_of(graph))
    theirs.meant = {key: without_numbers(meant) for key, meant in theirs.meant.items()}
    return theirs


def ask_of_last(graph, folder, probes):
    """What rustc says of the last crate of a graph, where those before it are built. Where it
    accepts it, it is asked again with probes, whose errors tell what is absent."""
    bare = written(graph.main)
    write_files(folder, bare.files)
    answers = rustc_answers.answers(graph, folder)
    if answers.errors:
        return refused(bare, answers.errors)
    probed = written(graph.main, probes)
    write_files(folder, probed.files)
    again = rustc_answers.answers(graph, folder)
    theirs = Theirs(meant=of_keys(graph, probed, again))
    theirs.lints = {it.code for it in answers.warnings + again.warnings} & ABOUT_MEANING
    leave_out(theirs, probed, again)
    note_private(theirs, bare, answers)
    for key, meant in of_keys(graph, bare, answers).items():
        if theirs.meant[key] != meant:
            theirs.left_out[key] = CHANGED
    return theirs


def leave_out(theirs, probed, answers):
    """Notes the probes that are ambiguous, and all that rustc warns of."""
    keys = {place: key for key, place in probed.places.items()}
    for told in answers.errors:
        for place in told.places:
            if told.code == "E0659" and place in keys:
                theirs.left_out[keys[place]] = AMBIGUOUS
            elif not isinstance(keys.get(place), tuple) and not in_probe(probed, place):
                theirs.left_out.update({it: CHANGED for it in probed.places})
    for told in answers.warnings:
        if told.code in ABOUT_MEANING:
            theirs.left_out.update({keys[it]: WARNED for it in told.places if it in keys})
    for key in undetermined(theirs, probed, answers):
        theirs.left_out[key] = UNDETERMINED


def note_private(theirs, bare, answers):
    """Notes the imports that show a private extern crate. It is the only warning that has the code
    of an error, and rustc tells of it only where there is no error."""
    places = {place for told in answers.warnings for place in told.places if told.code == "E0365"}
    theirs.left_out.update({key: PRIVATE_CRATE for key, it in bare.places.items() if it in places})


def undetermined(theirs, probed, answers):
    """The probes that mean nothing without an error: rustc tells of those that it cannot determine
    only where nothing else is wrong. An error before the names of a row is that of all of them."""
    places = {place for told in answers.errors for place in told.places}
    first = {}
    for place in probed.places.values():
        first[place[:2]] = min(place[2], first.get(place[:2], place[2]))
    rows = {place[:2] for place in places if place[2] < first.get(place[:2], 0)}
    return [key for key, place in probed.places.items() if theirs.meant[key] == {}
            and isinstance(key, tuple) and place not in places and place[:2] not in rows]


def in_probe(probed, place):
    """Whether a place is in the row of a probe's import: the errors of some are told within the
    path."""
    probes = {its[:2] for key, its in probed.places.items() if isinstance(key, tuple)}
    return place[:2] in probes


def options_of(graph, folder):
    """The options of `defmap` for a graph. The `cfg`s are those of all its crates."""
    words = ["--edition", graph.main.edition] + ["--sysroot", LIBRARY] * (graph.kind == "rules")
    if graph.cfgs:
        write_files(folder, {"cfgs": "".join(f"{it}\n" for it in graph.cfgs)})
        words += ["--cfg-file", "cfgs"]
    for crate in graph.crates[:-1]:
        words += ["--extern", f"{crate.name}@{crate.edition}={crate.root}"]
    return words


def run(program, folder, command, options, root):
    """What `defmap` prints, and tells with `--stats`; and what is wrong where it does not end, or
    fails."""
    words = [program, command, root, "--stats", *options]
    try:
        ran = subprocess.run(words, cwd=folder, capture_output=True, text=True, timeout=SECONDS,
                             check=False)
    except subprocess.TimeoutExpired:
        return "", "", "hung"
    if ran.returncode not in (0, 1, 3):
        return "", "", f"status {ran.returncode}: {ran.stderr[:300]}"
    return ran.stdout, ran.stderr, ""


def read_imports(printed, ours, keys, own):
    """Reads what `defmap imports` printed, by the keys of places."""
    for line in printed.splitlines():
        place, _, told = line.partition(": ")
        if place.count(":") < 2:
            continue
        path, row, column = place.rsplit(":", 2)
        where = (os.path.normpath(path), int(row), int(column))
        key = where if keys is None else keys.get(where)
        if key is None:
            continue
        meant = ours.meant.setdefault(key, {})
        for part in told.split("; ")[1:]:
            words = part.split(" ", 2)
            if part.startswith(("unknown, by ", "more unknown")):
                ours.unknown.add(key)
            elif part.startswith("private "):
                continue
            elif len(words) == 3 and words[1] == "builtin":
                meant[words[0]] = ("builtin", words[2].rpartition(" ")[2])
            elif len(words) == 3 and words[0] in ("type", "value", "macro"):
                one = meant_by(part, own)
                meant[one.namespace] = (one.kind, one.path)
            else:
                meant[part] = ("", "")


def add_imports(ours, program, folder, options, root, keys):
    """Adds what imports mean by `defmap`, of files in a folder, by the keys of places; without keys
    by places."""
    printed, told, ours.fault = run(program, folder, "imports", options, root)
    read_imports(printed, ours, keys, root.split("/")[0].removesuffix(".rs"))
    ours.is_supported = SUPPORTED in told


def note_bound(ours, printed):
    """Notes what modules bind by what `defmap tree` printed."""
    for module, names in trees(printed).items():
        ours.bound.update({(module, name): spaces for name, spaces in names.items()})


def add_bound(ours, program, folder, options, root):
    """Adds what modules bind by `defmap`."""
    printed, told, ours.fault = run(program, folder, "tree", options, root)
    note_bound(ours, printed)
    ours.is_supported = SUPPORTED in told


def ask_defmap(program, folder, options, root, keys):
    """What `defmap` says of files in a folder."""
    ours = Ours()
    add_imports(ours, program, folder, options, root, keys)
    if not ours.fault:
        add_bound(ours, program, folder, options, root)
    return ours


def ask_both(program, graph):
    """What both say of a graph. Where rustc refuses it, `defmap` is asked of the crates without
    probes."""
    with tempfile.TemporaryDirectory(prefix="random-crates-") as folder:
        theirs = ask_rustc(graph, folder)
        probes = None if theirs.codes else probes_of(graph)
        for crate in graph.crates:
            writer = written(crate, probes if crate is graph.main else None)
            write_files(folder, writer.files)
        keys = {place: key for key, place in writer.places.items()}
        options = options_of(graph, folder)
        ours = ask_defmap(program, folder, options, graph.main.root, keys)
        return theirs, ours
