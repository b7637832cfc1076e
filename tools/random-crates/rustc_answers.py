"""What rustc says of a crate: what each leaf of each `use` means in each namespace, and what it
refuses or warns of."""
import json
import os
import re
import subprocess
import tempfile
from dataclasses import dataclass, field

from judging import Wrong
from rustc_tree import definition

SECONDS = 120
# It does so over some crates that it would refuse.
PANICS = "rustc panics"
BLOCK = re.compile(r"^DefId\(", re.M)
SPAN = re.compile(r"span: (.+?):(\d+):(\d+): \d+:\d+ \(#(\d+)\)")
SPACES = (("type", "type_ns"), ("value", "value_ns"), ("macro", "macro_ns"))
BUILTIN = re.compile(r"PrimTy\( (?:\w+\( )?(\w+)")
# The number of a macro among those of its name in its module; the first one has none.
MACRO_NUMBER = re.compile(r"Macro\(.*?DefId\([^)]*?\w(#\d+)\)")
QUIET = ["--cap-lints", "warn", "-A", "unused", "-A", "nonstandard_style", "-A", "dead_code"]


@dataclass
class Told:
    """An error or a warning: its code, and the places that it is about."""

    code: str
    places: list
    text: str


@dataclass
class Answers:
    """What rustc says of a crate."""

    meant: dict = field(default_factory=dict)  # by place: of each namespace the kind and the path
    errors: list = field(default_factory=list)
    warnings: list = field(default_factory=list)


def meant_in(text):
    """What a `res` of a namespace tells: a kind and a path, that of a macro with its number."""
    builtin = BUILTIN.search(text)
    if builtin:
        return "builtin", builtin[1].lower()
    found, number = definition(text), MACRO_NUMBER.search(text)
    return (found.kind, found.path + (number[1] if number else "")) if found else None


def without_numbers(meant):
    """What is meant, where macros of one name in a module are not told apart."""
    return meant and {space: (kind, path.split("#")[0]) for space, (kind, path) in meant.items()}


def leaf_of(block):
    """Where a leaf begins, and what it means; None of what is no leaf, or is not written in the
    crate."""
    at, segments = block.find("res: PerNS {"), block.find("segments: [")
    span = SPAN.search(block[:at])
    if at < 0 or segments < at or not span or span[4] != "0":
        return None
    last = re.search(r"\n {20}(\w+)[,(]", block[segments:])
    if not last or last[1] not in ("Single", "Glob"):
        return None
    text = " ".join(block[at:segments].split())
    parts = re.split(r"(value_ns|type_ns|macro_ns): ", text)
    texts = dict(zip(parts[1::2], parts[2::2]))
    meant = {word: meant_in(texts[space]) for word, space in SPACES}
    meant = {word: it for word, it in meant.items() if it}
    if last[1] == "Glob":
        # Of an enum it stands at the namespace of values.
        meant = {"type": it for it in meant.values()}
    return (os.path.normpath(span[1]), int(span[2]), int(span[3])), meant


def leaves_of(printed):
    """What the leaves mean in what `-Zunpretty=hir-tree` printed, by where they begin."""
    found = {}
    for block in BLOCK.split(printed):
        if "kind: Use(" in block:
            leaf = leaf_of(block)
            if leaf:
                found[leaf[0]] = leaf[1]
    return found


def told_of(printed):
    """The errors and the warnings in the lines that rustc printed."""
    errors, warnings, lines = [], [], printed.splitlines()
    if any("panicked at" in it for it in lines):
        errors.append(Told(PANICS, [], " ".join(it for it in lines if "panicked at" in it)))
    for line in lines:
        if not line.startswith("{"):
            continue
        one = json.loads(line)
        code = (one.get("code") or {}).get("code")
        places = [(os.path.normpath(it["file_name"]), it["line_start"], it["column_start"])
                  for it in one.get("spans", []) if it["is_primary"]]
        if one["level"] in ("error", "warning") and not one["message"].startswith("aborting due"):
            told = Told(code or "no code", places, one["message"])
            (errors if one["level"] == "error" else warnings).append(told)
    return errors, warnings


def words_of(graph, crate, cfgs):
    """The words that rustc takes for a crate of a graph."""
    words = ["rustc", "--edition", crate.edition, "--crate-type", "lib", "--crate-name", crate.name,
             "--error-format", "json", *QUIET, "-L", "."]
    for cfg in cfgs:
        words += ["--cfg", cfg]
    for other in graph.crates[: graph.crates.index(crate)]:
        words += ["--extern", f"{other.name}=lib{other.name}.rmeta"]
    return words + [crate.root]


@dataclass
class Ran:
    """How a run of rustc ended, and what it printed."""

    returncode: int
    stdout: str
    stderr: str


def run(words, folder):
    """Runs rustc. What it prints goes to files, so that it need not wait for a reader."""
    how = {"cwd": folder, "env": {**os.environ, "RUSTC_BOOTSTRAP": "1"}, "check": False}
    with tempfile.TemporaryFile() as out, tempfile.TemporaryFile() as told:
        try:
            ran = subprocess.run(words, stdout=out, stderr=told, timeout=SECONDS, **how)
        except subprocess.TimeoutExpired:
            raise Wrong(f"rustc takes more than {SECONDS} s") from None
        for it in (out, told):
            it.seek(0)
        return Ran(ran.returncode, out.read().decode(), told.read().decode())


def build(graph, crate, folder):
    """Builds what those need that depend on a crate; gives what rustc refuses."""
    ran = run(words_of(graph, crate, graph.cfgs) + ["--emit", "metadata"], folder)
    errors = told_of(ran.stderr)[0]
    if ran.returncode and not errors:
        raise Wrong(f"rustc ends with {ran.returncode}: {ran.stderr[-600:]}")
    return errors


def answers(graph, folder):
    """What rustc says of the last crate of a graph, whose files are in a folder."""
    ran = run(words_of(graph, graph.main, graph.cfgs) + ["-Zunpretty=hir-tree"], folder)
    errors, warnings = told_of(ran.stderr)
    if ran.returncode and not errors:
        raise Wrong(f"rustc ends with {ran.returncode}: {ran.stderr[-600:]}")
    return Answers(leaves_of(ran.stdout), errors, warnings)
