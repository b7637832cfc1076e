"""What rustc says of a crate (`-Zunpretty=hir-tree`): its modules, what each declares, and what its imports mean.

Only what is written in the crate's files is read: what a macro brought has a span of another context than #0. Two forms
are read: that of rustc 1.63, in which an item has its name before its number, and a `use` is an item for each namespace;
and that of rustc 1.95, in which the number of an item comes first, and a `use` has what its path means in all namespaces.
"""
import re
from collections import Counter
from dataclasses import dataclass, field
from itertools import takewhile
from os.path import normpath

from judging import Wrong

# The words for rustc's kinds of definitions.
KINDS = {"Mod": "mod", "Struct": "struct", "Union": "union", "Enum": "enum", "Variant": "variant", "Trait": "trait",
         "TraitAlias": "trait", "TyAlias": "type", "ForeignTy": "type", "Fn": "fn", "Const": "const", "Static": "static",
         "Macro": "macro"}
TYPES = {"mod", "struct", "union", "enum", "variant", "trait", "type"}
# Why something that rustc prints is not read.
WITHIN = "in a body or an `impl`, or in what a macro wrote"
NO_LEAF = "a `use` that has leaves, each printed by itself"
NOT_WRITTEN = "a `use` that the compiler adds, as that of its prelude"
BY_MACRO = "a `use` that a macro wrote"
UNKNOWN_USE = "a `use` of a form that is not known"
UNKNOWN_ITEM = "an item of a form that is not known"
UNKNOWN_VARIANT = "a variant of a form that is not known"
NO_NAME = "an item without a name"
SPAN = re.compile(r"span: (.+?):(\d+):(\d+): (\d+):(\d+) \(#(\d+)\)")
NOWHERE = "span: no-location"
IDENT = re.compile(r"ident: (\S*?)#\d+,")
OWN_ID = re.compile(r"def_id: DefId\(\d+:\d+ ~ \w+\[\w+\]([^)]*)\)")
OWNER = re.compile(r"(?:owner: |HirId\()DefId\(\d+:\d+ ~ \w+\[\w+\]([^)]*)\)")
OWNER_ID = re.compile(r"owner_id: DefId\(\d+:\d+ ~ \w+\[\w+\]([^)]*)\)")
PER_NAMESPACE = re.compile(r"(?:value_ns|type_ns|macro_ns): ")
BOUND_NAME = re.compile(r"Single\( (\S*?)#\d+,")
KIND = re.compile(r"( *)kind: (\w+)")
DEF_ID = re.compile(r"DefId\(\d+:\d+ ~ (\w+)\[\w+\]([^)]*)\)")
# What paths have beyond names: the `extern` block or the constructor, and a number where a name stands twice.
INSIDE = re.compile(r"::\{(?:extern|constructor)#\d+\}|(?<=\w)#\d+(?=::|$)")


@dataclass(frozen=True)
class Meant:
    """What a leaf means in a namespace."""

    namespace: str
    kind: str
    path: str


@dataclass
class Leaf:
    """A leaf of a `use`: the module that it stands in, the name that it binds, and what it means."""

    home: str
    name: str
    is_glob: bool
    meant: set = field(default_factory=set)


@dataclass(frozen=True)
class Place:
    """The end of what a module has between its braces, or of its file."""

    file: str
    row: int
    column: int


@dataclass
class Said:
    """What rustc says of a crate. Modules are named by their paths, from `crate` on."""

    leaves: dict = field(default_factory=dict)  # by file, row and column
    modules: dict = field(default_factory=dict)  # the places of those that no macro brought
    declared: dict = field(default_factory=dict)  # the names of the items of each module, and of the variants of each enum
    macros: set = field(default_factory=set)  # the names of all macros
    globs: dict = field(default_factory=dict)  # what the globs of each module mean, those of macros too
    unread: Counter = field(default_factory=Counter)  # what was not read, by reason


def without_raw(name):
    return name.removeprefix("r#")


def definition(text):
    """The kind and the path of what a `res` tells; of a constructor those of its type."""
    found = DEF_ID.search(text)
    kind = re.search(r"Def\( (\w+)", text)
    if not found or not kind:
        return None
    path = INSIDE.sub("", found[1] + found[2])
    if kind[1] == "Ctor":
        return Meant("value", KINDS[re.search(r"Ctor\( (\w+)", text)[1]], path)
    word = KINDS.get(kind[1])
    space = "macro" if word == "macro" else "type" if word in TYPES else "value"
    return word and Meant(space, word, path)


def joined(lines):
    return " ".join(it.strip() for it in lines)


def meant_by_leaf(body):
    """What the path of a leaf means, which stands before its segments."""
    segments = next(it for it, text in enumerate(body) if text.strip() == "segments: [")
    return definition(joined(body[1:segments]))


def meant_by_glob(body):
    """What the path of a glob means, if not `super` or `crate` alone: only its last segment tells."""
    last = max((it for it, text in enumerate(body) if text.strip() == "res: Some("), default=None)
    return definition(joined(body[last : last + 6])) if last is not None else None


def read_use(said, name, owner, body, last):
    """Reads a leaf of a `use`."""
    home, span = owner.rpartition("::")[0], SPAN.search(body[0])
    if home not in said.declared:
        said.unread[WITHIN] += 1
        return
    if last == "ListStem,":
        said.unread[NO_LEAF] += 1
        return
    if last not in ("Single,", "Glob,") or not span:
        said.unread[UNKNOWN_USE] += 1
        return
    is_glob = last == "Glob,"
    meant = meant_by_leaf(body) or (meant_by_glob(body) if is_glob else None)
    if is_glob:
        said.globs.setdefault(home, set()).add(meant)
    if span[6] != "0":
        said.unread[BY_MACRO] += 1
        return
    leaf = said.leaves.setdefault((normpath(span[1]), int(span[2]), int(span[3])), Leaf(home, name, is_glob))
    if meant:
        leaf.meant.add(meant)


def read_module(said, path, lines):
    """Reads where a module ends, which the next lines tell."""
    said.declared[path] = set()
    inner = next((span for span in map(SPAN.search, lines) if span), None)
    if inner is None:
        raise Wrong("what rustc printed ends within a module")
    if inner[6] == "0":
        said.modules[path] = Place(normpath(inner[1]), int(inner[4]), int(inner[5]))


def read_uses(said, path, body):
    """Reads a leaf of a `use` with what its path means in all namespaces."""
    home, span, text = path.rpartition("::")[0], SPAN.search(joined(body)), joined(body)
    name, is_glob = BOUND_NAME.search(text), body[-1].strip() == "Glob,"
    if home not in said.declared:
        said.unread[WITHIN] += 1
        return
    if body[-1].strip() == "ListStem,":
        said.unread[NO_LEAF] += 1
        return
    if not span and NOWHERE in text:
        said.unread[NOT_WRITTEN] += 1
        return
    if not span or not (name or is_glob):
        said.unread[UNKNOWN_USE] += 1
        return
    meant = {definition(it) for it in PER_NAMESPACE.split(text.partition("segments: [")[0])[1:]} - {None}
    if is_glob:
        said.globs.setdefault(home, set()).update(meant or {None})
    else:
        said.declared[home].add(without_raw(name[1]))
    if span[6] == "0":
        where = (normpath(span[1]), int(span[2]), int(span[3]))
        leaf = said.leaves.setdefault(where, Leaf(home, without_raw(name[1]) if name else "", is_glob))
        leaf.meant |= meant
    else:
        said.unread[BY_MACRO] += 1


def read_of_kind(said, name, path, kind, lines):
    """Reads what follows of an item of a kind."""
    if kind[2] == "Macro":
        said.macros.add(name)
    elif kind[2] == "Mod":
        read_module(said, path, lines)
    elif kind[2] == "Enum":
        said.declared[path] = set()


def body_of(kind, lines):
    """The lines of an item up to where its kind ends."""
    end = f"{kind[1]}),\n"
    return list(takewhile(lambda it: it != end, lines))


def declare(said, path, name):
    home = path.rpartition("::")[0]
    if home in said.declared:
        said.declared[home].add(name)
    else:
        said.unread[WITHIN] += 1


def read_item(said, lines):
    """Reads an item, whose lines follow. Those within an `extern` block are of the module around it."""
    first, second = next(lines), next(lines)
    name, owner = IDENT.search(first), OWN_ID.search(second)
    if not name or not owner:
        read_numbered(said, OWNER_ID.search(first), KIND.match(second), lines)
        return
    kind = KIND.match(next(lines))
    if not kind:
        said.unread[UNKNOWN_ITEM] += 1
        return
    name, path = without_raw(name[1]), f"crate{INSIDE.sub('', owner[1])}"
    declare(said, path, name)
    if kind[2] == "Use":
        body = body_of(kind, lines)
        read_use(said, name, path, body[1:], body[-1].strip())
    else:
        read_of_kind(said, name, path, kind, lines)


def read_numbered(said, owner, kind, lines):
    """Reads an item that begins with its number, whose other lines follow."""
    if not owner or not kind:
        said.unread[UNKNOWN_ITEM] += 1
        return
    path = f"crate{INSIDE.sub('', owner[1])}"
    name = without_raw(path.rpartition("::")[2])
    if kind[2] == "Use":
        read_uses(said, path, body_of(kind, lines))
    elif name.startswith("{"):
        said.unread[NO_NAME] += 1
    else:
        declare(said, path, name)
        read_of_kind(said, name, path, kind, lines)


def read_foreign(said, indent, lines):
    """Reads an item of an `extern` block, of which the number of its owner tells the module."""
    body = list(takewhile(lambda it: it != f"{indent}}},\n", lines))
    name, owner = IDENT.search(body[0]), OWNER_ID.search("".join(body))
    if name and owner:
        declare(said, f"crate{INSIDE.sub('', owner[1])}", without_raw(name[1]))
    else:
        said.unread[UNKNOWN_ITEM] += 1


def read_variant(said, lines):
    """Reads a variant of an enum, whose lines follow."""
    name, owner = IDENT.search(next(lines)), OWNER.search(next(lines) + next(lines))
    if not name or not owner:
        said.unread[UNKNOWN_VARIANT] += 1
    elif (path := f"crate{INSIDE.sub('', owner[1])}") in said.declared:
        said.declared[path].add(without_raw(name[1]))
    else:
        said.unread[WITHIN] += 1


def read(lines):
    """What rustc says by the lines that it printed, which may be too many to be kept."""
    said, lines = Said(), iter(lines)
    for line in lines:
        if line.endswith(" Item {\n"):
            read_item(said, lines)
        elif line.endswith(" ForeignItem {\n"):
            read_foreign(said, line[: -len(line.lstrip())], lines)
        elif line.endswith(" Variant {\n"):
            read_variant(said, lines)
        elif line.endswith(" node: Crate(\n"):
            read_module(said, "crate", lines)
    return said
