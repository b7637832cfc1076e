"""The items of a Rust file as rustc parses them (`-Zunpretty=ast-tree`), of the file alone.

An item begins with its first outer attribute, as `defmap items` has it: comments are none.
"""
import os
import re
import subprocess

from rustc_parts import place, rustc_parts

# The kinds of items, by their names here, in `item_tree` and in rustc.
KINDS = (
    ("use", "Use", "Use"),
    ("extern_crate", "ExternCrate", "ExternCrate"),
    ("extern", "ExternBlock", "ForeignMod"),
    ("fn", "Function", "Fn"),
    ("struct", "Struct", "Struct"),
    ("union", "Union", "Union"),
    ("enum", "Enum", "Enum"),
    ("const", "Const", "Const"),
    ("static", "Static", "Static"),
    ("trait", "Trait", "Trait"),
    ("trait", "Trait", "TraitAlias"),
    ("impl", "Impl", "Impl"),
    ("type", "TypeAlias", "Type"),
    ("type", "TypeAlias", "TyAlias"),
    ("mod", "Mod", "Mod"),
    ("call", "MacroCall", "MacCall"),
    ("cfg_if", "CfgIf", ""),
    ("cfg_select", "CfgSelect", ""),
    ("arm", "CfgArm", ""),
    ("macro_rules", "MacroRules", "MacroDef"),
    ("macro", "Macro2", ""),
    ("inner", "InnerAttribute", ""),
    ("error", "Error", ""),
)
OF_RUSTC = {theirs: name for name, _, theirs in KINDS if theirs}

# What rustc prints: each value of the tree of the syntax stands in lines of its own, and what is in
# it is indented by four more. An `Item` whose own line is indented by N has its span and visibility
# at N + 4, its attributes and the parts of its kind at N + 8 or N + 12, and the items in it at
# N + 16, where no other line is `Item {`.
SPAN = re.compile(rb":(\d+):(\d+): (\d+):(\d+) \(#\d+\),$")
TYPE = re.compile(rb"kind: (\w+)")
NAME = re.compile(rb"((?:r#)?\w+|\{\{root\}\})#\d+,$")
STRING = re.compile(rb'"(.*)",$')


def named(lines, first, behind, lead):
    """The name on the first line that begins so."""
    for at in range(first, behind):
        if lines[at].startswith(lead) and (found := NAME.fullmatch(lines[at], len(lead))):
            return found.group(1).decode()
    raise ValueError(f"no name behind line {first}: {lines[first]}")


def name_in(lines, first, behind, depth, kind):
    """The name of an item of which the parts of the kind are these lines."""
    if kind in ("Use", "ForeignMod", "Impl"):
        return ""
    if kind == "MacCall":
        return path_in(lines, first, behind, depth + 24)
    if kind == "ExternCrate" and (string := STRING.search(lines[first + 1])):
        return string.group(1).decode()
    if kind in ("Struct", "Enum", "Union", "Mod", "MacroDef", "ExternCrate"):
        return named(lines, first, behind, b" " * (depth + 8))
    return named(lines, first, behind, b" " * (depth + 12) + b"ident: ")


def path_in(lines, first, behind, depth):
    """The words of the path of a macro call."""
    words, lead = [], b" " * depth + b"ident: "
    for at in range(first, place(lines, b" " * (depth - 8) + b"],", first, behind)):
        if lines[at].startswith(lead):
            words.append(NAME.fullmatch(lines[at], len(lead)).group(1).decode())
    return "::".join("" if word == "{{root}}" else word for word in words)


def read_items(lines, first, behind, depth, level, found):
    """Adds each item whose line stands at that depth: its kind, name, level, span in lines, and parts."""
    opening, closing = b" " * depth + b"Item {", b" " * depth + b"},"
    at = place(lines, opening, first, behind)
    while at < behind:
        end = place(lines, closing, at, behind)
        read_item(lines, at + 1, end, depth, level, found)
        at = place(lines, opening, end, behind)


def span_of(line):
    return tuple(map(int, SPAN.search(line).groups()))


def attribute_span(lines, first, behind, depth):
    """Where the first outer attribute stands that is no comment; nothing, where none does."""
    opening, lead = b" " * (depth + 8) + b"Attribute {", b" " * (depth + 12)
    at = place(lines, opening, first, behind)
    while at < behind:
        end = place(lines, opening, at + 1, behind)
        if lead + b"kind: Normal(" in lines[at:end] and lead + b"style: Outer," in lines[at:end]:
            return span_of(next(it for it in lines[at:end] if it.startswith(lead + b"span: ")))
        at = end
    return None


def read_item(lines, first, behind, depth, level, found):
    lead = b" " * (depth + 4)
    span_at = next(at for at in range(first, behind) if lines[at].startswith(lead + b"span: "))
    span = span_of(lines[span_at])
    attribute = attribute_span(lines, first, span_at, depth)
    span = (*(attribute or span)[:2], *span[2:])
    kind_at = next(at for at in range(span_at, behind) if lines[at].startswith(lead + b"kind: "))
    theirs = TYPE.search(lines[kind_at]).group(1).decode()
    kind = OF_RUSTC[theirs]
    of_macro = b" " * (depth + 12) + b"macro_rules: false,"
    if theirs == "MacroDef" and place(lines, of_macro, kind_at, behind) < behind:
        kind = "macro"
    name = name_in(lines, kind_at + 1, behind, depth, theirs)
    parts = rustc_parts(kind, lines, first, kind_at, behind, depth)
    found.append((kind, name, level, span, parts))
    if theirs in ("Mod", "Trait", "Impl", "ForeignMod"):
        read_items(lines, kind_at, behind, depth + 16, level + 1, found)


def places_of(content):
    """For each line of a text the bytes where it begins and ends."""
    places, at = [], 3 if content.startswith(b"\xef\xbb\xbf") else 0
    for line in content[at:].split(b"\n"):
        places.append((at, at + len(line)))
        at += len(line) + 1
    return places


def byte_of(content, places, line, column):
    """The byte of a character of a line, both counted from 1."""
    start, end = places[line - 1]
    return start + len(content[start:end].decode()[:column - 1].encode())


def wanted_items(content, edition):
    """The items of a text as rustc has them, or nothing where it does not parse the text."""
    words = ["rustc", "-Zunpretty=ast-tree", "--edition", edition, "--crate-name", "it", "-"]
    run = subprocess.run(words, input=content, capture_output=True, check=False,
                         env={**os.environ, "RUSTC_BOOTSTRAP": "1"})
    if run.returncode != 0:
        return None
    found = []
    lines = run.stdout.split(b"\n")
    read_items(lines, 0, len(lines), 8, 0, found)
    places = places_of(content)
    return sorted((byte_of(content, places, *span[:2]), byte_of(content, places, *span[2:]),
                   level, kind, name, parts) for kind, name, level, span, parts in found)
