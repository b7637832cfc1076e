"""The rules of docs/IMPORTS.md, said again: what they give of what rustc says of a crate.

Modules and enums are named by their paths, the crate's name first; what `()` sees, all see.
"""
from dataclasses import dataclass, replace

from around_modules import BUILTIN, Around, bound_by
from asking import PRIVATE_CRATE
from crate_model import Use, modules_of

SPACES = ("type", "value", "macro")
# Where the rules are not Rust's, each as rustc has it. `Maps` follows the rules, and these where it
# is told so.
ROOT_ALONE = "in edition 2015 paths begin in the root alone, and not in the extern prelude"
EXTERN_SHOWN = "a public import of an extern crate's item shows it to all, though it be private"
AMENDMENTS = (ROOT_ALONE, EXTERN_SHOWN)


class Unknown(Exception):
    """A name that is read, and not compared."""


@dataclass(frozen=True)
class Meaning:
    """A definition, and the module within which it is seen. Where that is not exact, it is perhaps
    seen further out too, from where no path leads to its module."""

    what: tuple
    seen_in: tuple
    is_exact: bool = True


# What globs bring where they disagree. Where rustc finds that too, the name is not looked at.
AMBIGUOUS = Meaning(("ambiguous",), ())


@dataclass(eq=False)
class Import:
    """A leaf of a `use`. `textual` is the last textual macro of its name before it, by its path."""

    home: tuple
    segments: list
    shown_in: tuple
    name: str = ""  # none for a glob
    type_only: bool = False
    textual: str = ""
    number: int = 0


def sees(home, seen_in):
    return home[: len(seen_in)] == seen_in


def least(one, other):
    return max(one, other, key=len)


def narrowed(found, shown):
    """What is shown on to those within a module."""
    is_exact = found.is_exact or least(found.seen_in, shown) != found.seen_in
    return Meaning(found.what, least(found.seen_in, shown), is_exact)


def shown_in(words, home):
    """The module to which the words of a visibility show something."""
    if words == "pub":
        return ()
    if words == "pub(crate)":
        return home[:1]
    if words == "pub(super)":
        return home[:-1]
    if words.startswith("pub(in"):
        return home[:1] + tuple(words[len("pub(in crate::"):-1].split("::"))
    return home


def leaves(tree, before=()):
    """The leaves of a tree, each with all segments of its path."""
    segments = [*before, *tree.segments]
    if tree.inner is None:
        yield segments, tree
    for one in tree.inner or ():
        yield from leaves(one, segments)


def imports_of(item, home, macros):
    """The imports of a `use`."""
    words = shown_in(item.visibility, home)
    for segments, leaf in leaves(item.tree):
        if leaf.is_glob:
            yield Import(home, segments, words)
            continue
        alone = segments[-1] == "self" and len(segments) > 1
        segments = segments[:-1] if alone else segments
        textual = macros.get(segments[0], "") if len(segments) == 1 else ""
        name = leaf.rename or segments[-1]
        yield Import(home, segments, words, name, alone, textual, leaf.number)


def enums_of(crate):
    """The enums of a crate, each with the namespaces of its variants, and who sees it."""
    enums = {}
    for path, items in modules_of(crate):
        home = (crate.name, *path)
        for item in items:
            if item.before == "enum":
                table = {}
                for it in item.behind.strip(" {}").split(", "):
                    spaces = ("type",) if "{" in it else ("type", "value")
                    table[it.split("(")[0].split(" ")[0]] = spaces
                enums[*home, item.name] = (table, shown_in(item.visibility, home))
    return enums


class Maps:
    """What rustc says of a crate and those before it, and the imports of that crate."""

    def __init__(self, graph, crate, said, standard, amended=()):
        self.crate, self.said, self.standard, self.amended = crate, said, standard, amended
        self.own, self.around = said[crate.name], Around(graph, crate)
        self.root = (crate.name,)
        self.modules = [(crate.name, *path) for path, _ in modules_of(crate)]
        self.imports, self.globs, self.known = {}, {}, {}
        self.declared, self.enums, self.extern_items = {}, {}, set()
        self.sources, self.tried = {}, 0
        self.ways = set()  # imports, each with a rule by which its path led on
        for it in graph.crates[: graph.crates.index(crate) + 1]:
            self.enums.update(enums_of(it))
        for path, items in modules_of(crate):
            for item in items:
                self.add(self.root + path, item)
        for name, paths in self.around.exported.items():
            self.declare(self.root, name, *paths)
        for name in self.around.injected:
            self.declare_crate(self.root, name, name)

    def add(self, home, item):
        if item.before == "extern crate":
            self.declare_crate(home, bound_by(item), *self.around.target(item))
        elif isinstance(item, Use):
            for one in imports_of(item, home, self.around.textual[item.number]):
                if one.name:
                    self.imports.setdefault((home, one.name), []).append(one)
                else:
                    self.globs.setdefault(home, []).append(one)
        elif item.before != "macro_rules!":
            self.declare(home, item.name, "::".join((*home, item.name)))

    def declare(self, home, name, *paths):
        self.declared.setdefault((home, name), set()).update(paths)

    def declare_crate(self, home, name, crate):
        self.declare(home, name, crate)
        self.extern_items.add((home, name))

    def is_declared(self, slot, found):
        """Whether what a name means is what the module itself declares."""
        return found is not None and found.what[1] in self.declared.get(slot, ())

    def by(self, one, way, found):
        """Notes by which rule the path of an import led on, if it did."""
        if found:
            self.ways.add((one, way))
        return found

    # ---- What rustc says

    def asked(self, said, viewer, module, name):
        """What a module finds by a name of another one, in each namespace."""
        key = (viewer, module, name)
        if key in said.theirs.left_out or key not in said.theirs.meant:
            raise Unknown(said.theirs.left_out.get(key, "no probe"))
        return said.theirs.meant[key] or {}

    def at(self, home, space, name):
        """What rustc says that a name of a module means, and within which module it is seen."""
        if (home, space, name) not in self.known:
            self.known[home, space, name] = self.looked_up(home, space, name)
        return self.known[home, space, name]

    def looked_up(self, home, space, name):
        """Asks from the module outwards, and from another crate last, as far as the name is seen.
        Where no path leads from further out to the module, it is perhaps seen there, too."""
        found, is_cut = None, False
        viewers = [home[:it] for it in range(len(home), 0, -1)]
        for viewer in viewers + [()]:
            if not viewer and home not in self.own.ways:
                is_cut = True
                break
            meant = self.asked(self.own, viewer, home, name).get(space)
            if meant is None and viewer and not self.leads(viewer, home):
                is_cut = True
            elif meant is None:
                break
            elif found and found.what != tuple(meant):
                raise Unknown("rustc says one thing to some modules and another to others")
            else:
                found, is_cut = Meaning(tuple(meant), viewer), False
        return found and replace(found, is_exact=not is_cut)

    def leads(self, viewer, home):
        """Whether the path by which a module asks leads to another one."""
        steps = range(len(viewer), len(home))
        found = [self.at(home[:it], "type", home[it]) for it in steps]
        return all(it and sees(viewer, it.seen_in) for it in found)

    # ---- Paths

    def foreign(self, module, space, name):
        """A name of a module of another crate: what is seen there by all."""
        said = self.said.get(module[0], self.standard)
        found = self.asked(said, (), module, name).get(space)
        return Meaning(tuple(found), ()) if found else None

    def member(self, container, space, name, one):
        """A name of a module or an enum, where an import sees it. It does not see its own."""
        if container in self.enums:
            table, seen_in = self.enums[container]
            is_there = space in table.get(name, ()) and sees(one.home, seen_in)
            path = "::".join((*container, name))
            return Meaning(("variant", path), seen_in) if is_there else None
        if container[0] != self.crate.name:
            return self.by(one, "a module of another crate", self.foreign(container, space, name))
        found = self.at(container, space, name)
        if found and self.is_own(one, container, space, name):
            return self.by(one, "below its own binding", self.brought(container, space, name))
        if found and not found.is_exact and not sees(one.home, found.seen_in):
            raise Unknown("seen perhaps where no path leads to its module")
        if not found or not sees(one.home, found.seen_in):
            return None
        is_public_import = EXTERN_SHOWN in self.amended and one.name and one.shown_in == ()
        is_crate = (container, name) in self.extern_items
        if is_public_import and is_crate and self.is_declared((container, name), found):
            return Meaning(found.what, ())
        return found

    def is_own(self, one, container, space, name):
        """Whether a name is bound by the import that asks."""
        is_slot = one.name and (container, name) == (one.home, one.name)
        return is_slot and self.source(container, space, name) is one

    def source(self, home, space, name):
        """The import that bound a name, none where that was a glob or is a declaration: the one
        that brings what rustc says, where it does not see what it bound; else one that brings
        anything so. As long as one is tried, the name counts as bound by it."""
        slot, chosen = (home, space, name), None
        found = None if slot in self.sources else self.at(home, space, name)
        if not found or self.is_declared((home, name), found):
            return self.sources.get(slot)
        self.tried += 1
        try:
            for one in self.imports.get((home, name), []):
                self.sources[slot] = one
                brought = self.brings(one, space)
                if brought and brought.what == found.what:
                    chosen = one
                    break
                chosen = one if brought and not chosen else chosen
        finally:
            self.sources.pop(slot, None)
            self.tried -= 1
        if not self.tried:
            self.sources[slot] = chosen
        return chosen

    def brings(self, one, space):
        """What an import brings in a namespace."""
        if self.own.theirs.left_out.get(one.number) == PRIVATE_CRATE:
            raise Unknown(PRIVATE_CRATE)
        found = None if one.type_only and space != "type" else self.path(one, space)
        return narrowed(found, one.shown_in) if found else None

    def container(self, found):
        if found is None or found.what[0] not in ("mod", "enum"):
            return None
        return tuple(found.what[1].split("::"))

    def extern(self, space, name):
        crate = self.around.externs.get(name) if space == "type" else None
        return Meaning(("mod", crate[0]), ()) if crate else None

    def used_macro(self, space, name):
        """A macro of the `macro_use` prelude: of the last root that has it. The first root is that
        of the standard library, which no item names."""
        roots = self.around.macro_roots if space == "macro" else []
        for number, (root, names) in reversed(list(enumerate(roots))):
            found = self.foreign(root, space, name) if names is None or name in names else None
            if found and number:
                return Meaning(found.what, self.root)
            if found:
                return found
        return None

    def names_around(self, space, name):
        """What stands around a module under a name, and by which rule."""
        found = self.extern(space, name)
        if found:
            return found, "a crate of the extern prelude"
        found = self.used_macro(space, name)
        if found:
            return found, "a macro of the macro_use prelude"
        found = self.foreign(self.around.prelude, space, name)
        if found:
            return found, "the standard prelude"
        is_builtin = space == "type" and name in BUILTIN
        return Meaning(("builtin", name), ()) if is_builtin else None, "a builtin type"

    def in_module(self, one, space, name):
        """The first segment of a plain path: names around the module go before those of globs."""
        found = self.member(one.home, space, name, one)
        around, way = self.names_around(space, name)
        is_own = self.is_own(one, one.home, space, name)
        if found and around and (is_own or self.is_by_glob(one.home, space, name)):
            return self.by(one, f"{way}, before a glob", around)
        if found and around:
            return self.by(one, f"a name of the module, before {way}", found)
        return found or self.by(one, way, around)

    def is_by_glob(self, home, space, name):
        """Whether a name of a module was brought by a glob."""
        is_declared = self.is_declared((home, name), self.at(home, space, name))
        return not is_declared and self.source(home, space, name) is None

    def first(self, one, space, name, is_absolute, textual):
        """What the first segment means of a path that begins at no module."""
        if self.around.is_2015:
            found = self.member(self.root, space, name, one)
            found = self.by(one, "the root, in edition 2015", found)
            return found if ROOT_ALONE in self.amended else found or self.extern(space, name)
        if is_absolute:
            return self.by(one, "a crate behind two colons", self.extern(space, name))
        if textual and space == "macro":
            is_shown = self.around.is_exported(textual)
            found = Meaning(("macro", textual), () if is_shown else self.root)
            return self.by(one, "a textual macro", found)
        return self.in_module(one, space, name)

    def begun(self, one, space):
        """Where a path begins: what that means, and the segments behind it."""
        segments, at = list(one.segments), one.home
        if segments[0] == "crate":
            segments, at = segments[1:], self.root
        elif segments[0] in ("self", "super"):
            while segments and segments[0] in ("self", "super"):
                at = at[:-1] if segments[0] == "super" else at
                segments = segments[1:]
        else:
            is_absolute = segments[0] == ""
            name, *rest = segments[is_absolute:]
            return self.first(one, "type" if rest else space, name, is_absolute, one.textual), rest
        is_type = segments or space == "type"
        return Meaning(("mod", "::".join(at)), ()) if is_type else None, segments

    def path(self, one, space):
        """What the path of an import means in a namespace."""
        found, segments = self.begun(one, space)
        for number, name in enumerate(segments):
            container = self.container(found)
            if container is None:
                return None
            is_last = number == len(segments) - 1
            found = self.member(container, space if is_last else "type", name, one)
        return found

    # ---- What modules have

    def brought(self, home, space, name):
        """What the globs of a module bring together."""
        offers = []
        for glob in self.globs.get(home, []):
            source = self.container(self.path(glob, "type"))
            if source is not None and source != home:
                found = self.member(source, space, name, glob)
                if found:
                    offers.append(narrowed(found, glob.shown_in))
        if len({it.what for it in offers}) > 1:
            return AMBIGUOUS
        if not offers:
            return None
        return max(offers, key=lambda it: (-len(it.seen_in), not it.is_exact))

    def given(self, home, space, name):
        """What the rules give of a name that is not declared."""
        for one in self.imports.get((home, name), []):
            found = self.brings(one, space)
            if found:
                return found
        return self.brought(home, space, name)

    def is_same(self, found, given):
        """Whether the rules give what rustc says, and as far as paths lead show it to the same."""
        if found is None or given is None:
            return found == given
        is_seen = found.seen_in == given.seen_in \
            or not found.is_exact and sees(found.seen_in, given.seen_in) \
            or not given.is_exact and sees(given.seen_in, found.seen_in)
        return found.what == given.what and is_seen
