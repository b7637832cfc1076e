"""The visibility, the fields or variants, and the leaves of the use tree of an item, as rustc prints them
(`-Zunpretty=ast-tree`) and as `defmap items` does."""
import re

from judging import Wrong

SHAPES = ("Unit", "Tuple", "Record")
SHORT = {"crate": "PubCrate", "super": "PubSuper", "self": "PubSelf"}
NAME = re.compile(rb"((?:r#)?\w+|\{\{root\}\})#\d+,$")
RESTRICTED = re.compile(r"In\(.*\)$")
# A member: its visibility, its name if it has one, and the shape of its own fields.
MEMBER = re.compile(r"^  (In\(.*?\)|\S+) (.*) (true|false) (\S+)$", re.S)
LEAF = re.compile(r"^(?:Single|Glob) .* = (\w+) ?(.*)$")


def place(lines, line, first, behind):
    """The number of the first such line, or `behind`."""
    try:
        return lines.index(line, first, behind)
    except ValueError:
        return behind


def groups(lines, opening, depth, first, behind):
    """The lines of each value that begins with such a line at a depth, from the next one on."""
    begin, closing = b" " * depth + opening, b" " * depth + b"},"
    at = place(lines, begin, first, behind)
    while at < behind:
        end = place(lines, closing, at, behind)
        yield at + 1, end
        at = place(lines, begin, end, behind)


def names(lines, first, behind, depth):
    """The words of the path whose segments stand at a depth, without the `r#` of raw ones, which rustc
    prints where it is needed alone."""
    lead = b" " * depth + b"ident: "
    found = (NAME.fullmatch(lines[at], len(lead)) for at in range(first, behind) if lines[at].startswith(lead))
    return [without_raw(it[1].decode()).replace("{{root}}", ":") for it in found]


def without_raw(name):
    return name.removeprefix("r#")


def visibility(lines, first, behind, depth):
    """The visibility whose line stands at a depth."""
    at = place(lines, b" " * depth + b"vis: Visibility {", first, behind)
    kind = lines[at + 1].strip() if at < behind else b""
    if kind == b"kind: Public,":
        return "Public"
    if kind != b"kind: Restricted {":
        return "Inherited"
    end = place(lines, b" " * depth + b"},", at, behind)
    path = names(lines, at, end, depth + 20)
    is_short = place(lines, b" " * (depth + 8) + b"shorthand: true,", at, end) < end
    return SHORT.get(path[0], "In") if is_short else "In"


def fields(lines, first, behind, depth):
    """Fields whose lines stand at a depth: the visibility and the name of each."""
    for at, end in groups(lines, b"FieldDef {", depth, first, behind):
        name_at = place(lines, b" " * (depth + 4) + b"ident: Some(", at, end)
        name = NAME.fullmatch(lines[name_at + 1].strip())[1].decode() if name_at < end else ""
        name = without_raw(name)
        yield visibility(lines, at, end, depth + 4), name, ""


def shape(lines, first, behind, depth):
    """The shape of fields, whose own line stands at a depth."""
    words = {b"Struct {": "Record", b"Tuple(": "Tuple", b"Unit(": "Unit", b"Unit,": "Unit"}
    lead = b" " * depth
    found = (words.get(lines[at][depth:].removeprefix(b"data: ")) for at in range(first, behind)
             if lines[at].startswith(lead) and lines[at][depth:depth + 1] != b" ")
    return next((it for it in found if it), "Unit")


def variants(lines, first, behind, depth):
    """Variants whose lines stand at a depth: the visibility, the name and the shape of each."""
    for at, end in groups(lines, b"Variant {", depth, first, behind):
        lead = b" " * (depth + 4) + b"ident: "
        name = next(NAME.fullmatch(lines[it], len(lead)) for it in range(at, end) if lines[it].startswith(lead))
        yield visibility(lines, at, end, depth + 4), without_raw(name[1].decode()), shape(lines, at, end, depth + 4)


def leaves(lines, first, behind, depth, prefix, is_nested):
    """The leaves of the use tree whose own lines stand at a depth: how each imports, its path, and its alias."""
    path_at = place(lines, b" " * depth + b"prefix: Path {", first, behind)
    path_end = place(lines, b" " * depth + b"},", path_at, behind)
    own = names(lines, path_at, path_end, depth + 12)
    kind = next(lines[at].strip() for at in range(path_end, behind) if lines[at].startswith(b" " * depth + b"kind: "))
    if kind == b"kind: Glob,":
        yield "Glob", prefix + own, ""
    elif kind == b"kind: Simple(":
        alias_at = place(lines, b" " * (depth + 4) + b"Some(", path_end, behind)
        alias = NAME.fullmatch(lines[alias_at + 1].strip())[1].decode() if alias_at < behind else ""
        is_type = is_nested and own == ["self"]
        yield "TypeOnly" if is_type else "Plain", prefix + ([] if is_type else own), without_raw(alias)
    else:
        for at, end in groups(lines, b"UseTree {", depth + 12, path_end, behind):
            yield from leaves(lines, at, end, depth + 16, prefix + own, True)


def rustc_parts(kind, lines, first, kind_at, behind, depth):
    """The parts of an item of rustc, whose own line stands at a depth, and its kind at another line."""
    vis = visibility(lines, first, kind_at, depth + 4)
    if kind == "use":
        return vis, "", tuple((how, tuple(path), alias) for how, path, alias in
                              leaves(lines, kind_at, behind, depth + 12, [], False))
    if kind == "enum":
        return vis, "Record", tuple(variants(lines, kind_at, behind, depth + 16))
    if kind in ("struct", "union"):
        return vis, shape(lines, kind_at, behind, depth + 8), tuple(fields(lines, kind_at, behind, depth + 16))
    return vis, "", ()


def our_member(vis, name, is_named, own):
    return RESTRICTED.sub("In", vis), without_raw(name) if is_named == "true" else "", own


def our_leaf(line):
    """A leaf of a use tree as it is printed: how it imports, its path, and its alias; nothing for other trees."""
    found = LEAF.match(line)
    if not found:
        return None
    path, _, alias = found[2].partition(" as ")
    return found[1], tuple(map(without_raw, path.split())), without_raw(alias)


def our_shapes(lines):
    """The shape and the members of each item. A string that stands in the place of a name may go on
    over lines."""
    found, begun = [], ""
    for line in lines:
        if not begun and line in SHAPES:
            found.append((line, []))
            continue
        begun = f"{begun}\n{line}" if begun else line
        member = MEMBER.match(begun)
        if member:
            found[-1][1].append(our_member(*member.groups()))
            begun = ""
    if begun:
        raise Wrong(f"this is no member: {begun[:60]!r}")
    return found


def our_parts(kinds, visibilities, members, uses):
    """The parts of each item, by what is printed of the items of these kinds."""
    vis = [RESTRICTED.sub("In", it) for it in visibilities]
    shapes = our_shapes(members)
    trees = []
    for line in uses:
        if " None " in line.split(" = ")[0][:14]:
            trees.append([])
        trees[-1].append(our_leaf(line))
    found, trees = [], iter(trees)
    for number, kind in enumerate(kinds):
        if kind == "use":
            found.append((vis[number], "", tuple(it for it in next(trees) if it)))
        elif kind in ("struct", "union", "enum"):
            own = [(how, name, shape if kind == "enum" else "") for how, name, shape in shapes[number][1]]
            found.append((vis[number], shapes[number][0], tuple(own)))
        else:
            found.append((vis[number], "", ()))
    return found
