"""Crates with what rustc answers, in a file, so that `defmap` can be compared with it where there
is no rustc.

Each begins with a line `crate` that has its kind and its seed. Behind it stand its files, each
behind a line `//-` with its path, that of a root with what the crate is; then a line `answers`, and
one for each import that means something in some namespace, by where it begins. One with `?` is not
compared: it is ambiguous, or rustc answers by the order of items. All other imports mean nothing.
"""
import tempfile
from dataclasses import dataclass, field

from asking import ask_defmap, options_of, probes_of, write_files
from comparing import shown_meant
from crate_model import Crate, Graph, written
from judging import Wrong, read_text


@dataclass
class Recorded:
    """What was recorded of some crates."""

    graph: Graph
    files: dict = field(default_factory=dict)
    answers: dict = field(default_factory=dict)  # by place; None of what is not compared


def head_of(graph, crate):
    """The words behind the path of the root of a crate."""
    others = [it.name for it in graph.crates[: graph.crates.index(crate)]]
    words = [f"crate:{crate.name}"] + [f"deps:{','.join(others)}"] * bool(others)
    words += [f"edition:{crate.edition}"]
    return " ".join(words + [f"cfg:{','.join(graph.cfgs)}"] * bool(graph.cfgs))


def text_of(outcome):
    """The text that records an outcome."""
    graph = outcome.graph
    lines = [f"crate {graph.kind} {graph.seed}"]
    for crate in reversed(graph.crates):
        writer = written(crate, probes_of(graph) if crate is graph.main else None)
        for path in sorted(writer.files, key=lambda it: it != crate.root):
            head = f" {head_of(graph, crate)}" if path == crate.root else ""
            lines += [f"//- /{path}{head}", writer.files[path].rstrip("\n")]
        places = writer.places if crate is graph.main else places
    lines.append("answers")
    for key, place in sorted(places.items(), key=lambda it: it[1]):
        meant = outcome.theirs.meant[key]
        if key in outcome.theirs.left_out or key in outcome.unstable:
            lines.append(f"{':'.join(map(str, place))}: ?")
        elif meant:
            lines.append(f"{':'.join(map(str, place))}: {shown_meant(meant)}")
    return "\n".join(lines) + "\n"


def add_head(one, words):
    """Reads the words of a line `//-`: of a root, its crate is one of the graph."""
    told = dict(it.split(":", 1) for it in words[1:])
    if "crate" in told:
        one.graph.crates.insert(0, Crate(told["crate"], told["edition"]))
        one.graph.cfgs = told["cfg"].split(",") if "cfg" in told else one.graph.cfgs
    return words[0].lstrip("/")


def add_answer(one, line):
    """Reads what an import means."""
    place, told = line.rsplit(": ", 1)
    path, row, column = place.rsplit(":", 2)
    parts = [it.split(" ", 2) for it in told.split(", ")] if told != "?" else None
    one.answers[path, int(row), int(column)] = parts and {it[0]: (it[1], it[2]) for it in parts}


def read(path):
    """The crates of a file that was recorded."""
    found, file, in_answers = [], "", False
    for line in read_text(path).splitlines():
        if line.startswith("crate "):
            kind, seed = line.split(" ")[1:]
            found.append(Recorded(Graph([], kind, int(seed))))
            in_answers = False
        elif line.startswith("//- "):
            file = add_head(found[-1], line.split(" ")[1:])
            found[-1].files[file] = ""
        elif line == "answers":
            in_answers = True
        elif in_answers:
            add_answer(found[-1], line)
        else:
            found[-1].files[file] += line + "\n"
    if not found:
        raise Wrong(f"{path} has no crates")
    return found


def differing(program, one):
    """What `defmap` says otherwise than what was recorded, a line for each."""
    with tempfile.TemporaryDirectory(prefix="random-crates-") as folder:
        write_files(folder, one.files)
        options = options_of(one.graph, folder)
        ours = ask_defmap(program, folder, options, one.graph.main.root, None)
    if ours.fault:
        return [ours.fault]
    lines = []
    for place in sorted(set(ours.meant) | set(one.answers)):
        wanted, mine = one.answers.get(place, {}), ours.meant.get(place)
        if wanted is not None and place not in ours.unknown and (mine is None or mine != wanted):
            shown = ":".join(map(str, place))
            lines.append(f"{shown}: rustc: {shown_meant(wanted)}; defmap: {shown_meant(mine)}")
    return lines
