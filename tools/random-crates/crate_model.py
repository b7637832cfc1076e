"""A graph of small crates: its modules, items and imports, and the files that it is written to.

Each item and each leaf of a `use` has a number, which it keeps where the crates are changed: so
what a leaf means can be compared after its item was moved, and where it stands is known by the
number.
"""
import copy
from dataclasses import dataclass, field


@dataclass
class Tree:
    """A tree of a `use`: segments, then a name, a star or a list. Where it is no list, it is a
    leaf."""

    segments: list
    number: int = 0
    rename: str = ""
    is_glob: bool = False
    inner: list = None

    def leaves(self):
        return [self] if self.inner is None else [it for one in self.inner for it in one.leaves()]


@dataclass
class Item:
    """An item: its name and the words around it. One that is fixed keeps its place when others are
    moved."""

    number: int
    visibility: str
    before: str
    name: str
    behind: str
    attributes: list = field(default_factory=list)
    is_fixed: bool = False

    def inner(self):
        return []


@dataclass
class Module(Item):
    """A module, whose items stand between braces or in a file, for which a path may be given."""

    items: list = field(default_factory=list)
    file: str = ""
    begins: list = field(default_factory=list)  # its inner attributes

    def inner(self):
        return self.items


@dataclass
class Use(Item):
    tree: Tree = None


@dataclass
class Crate:
    """A crate. It knows those of the graph that stand before it."""

    name: str
    edition: str
    items: list = field(default_factory=list)
    attributes: list = field(default_factory=list)

    @property
    def root(self):
        return f"{self.name}.rs" if self.name == "main" else f"{self.name}/lib.rs"


@dataclass
class Graph:
    """Crates, of which the last one is compared."""

    crates: list
    kind: str
    seed: int
    cfgs: list = field(default_factory=list)

    @property
    def main(self):
        return self.crates[-1]


def modules_of(crate):
    """The paths of the modules of a crate, and their items."""
    left, found = [((), crate.items)], []
    while left:
        path, items = left.pop(0)
        found.append((path, items))
        left += [(path + (it.name,), it.items) for it in items if isinstance(it, Module)]
    return found


def item_lists(graph):
    """All lists of items of a graph."""
    return [items for crate in graph.crates for _, items in modules_of(crate)]


@dataclass
class Probe:
    """A module that asks for names: of each module whose path it has, in a line, some names, each
    of a key."""

    name: str
    asked: list  # of paths, each with keys and names


def folder_of(file):
    return file.rpartition("/")[0] + "/" if "/" in file else ""


class Writer:
    """Writes a crate, and notes where its leaves and the imports of probes begin, and in which row
    which item stands."""

    def __init__(self, probes):
        self.files, self.places, self.rows, self.probes = {}, {}, {}, probes

    def add(self, file, text):
        self.files[file] = self.files.get(file, "") + text

    def here(self, file):
        text = self.files[file]
        return file, text.count("\n") + 1, len(text) - text.rfind("\n")

    def tree(self, file, tree):
        """Writes a tree. Where only `*` stands in a list, the leaf begins there."""
        if tree.inner is None:
            self.places[tree.number] = self.here(file)
            self.add(file, "::".join(tree.segments + ["*"] * tree.is_glob))
            self.add(file, f" as {tree.rename}" if tree.rename else "")
            return
        self.add(file, "".join(f"{it}::" for it in tree.segments) + "{")
        for number, one in enumerate(tree.inner):
            self.add(file, ", " if number else "")
            self.tree(file, one)
        self.add(file, "}")

    def item(self, file, folders, indent, path, item):
        for one in item.attributes:
            self.rows[self.here(file)[:2]] = item.number
            self.add(file, f"{indent}{one}\n")
        self.add(file, indent + (f"{item.visibility} " if item.visibility else ""))
        self.rows[self.here(file)[:2]] = item.number
        if isinstance(item, Use):
            self.add(file, "use ")
            self.tree(file, item.tree)
            self.add(file, ";\n")
        elif isinstance(item, Module):
            self.module(file, folders, indent, path + (item.name,), item)
        else:
            self.add(file, f"{item.before} {item.name}{item.behind}\n")

    def module(self, file, folders, indent, path, module):
        """Writes a module. `folders` are those that a file of a name and one of a path are looked
        for in."""
        self.add(file, f"mod {module.name}")
        name = module.name.replace("r#", "")
        if not module.file:
            self.add(file, " {\n" + "".join(f"{indent}    {it}\n" for it in module.begins))
            self.items(file, (f"{folders[0]}{name}/",) * 2, indent + "    ", path, module.items)
            self.add(file, indent + "}\n")
            return
        self.add(file, ";\n")
        if module.file.startswith("path:"):
            inner = folders[1] + module.file[len("path:"):]
        else:
            inner = folders[0] + (f"{name}.rs" if module.file == "name" else f"{name}/mod.rs")
        beside = folder_of(inner)
        self.add(inner, "".join(f"{it}\n" for it in module.begins))
        own = f"{folders[0]}{name}/" if module.file == "name" else beside
        self.items(inner, (own, beside), "", path, module.items)

    def items(self, file, folders, indent, path, items):
        for item in items:
            self.item(file, folders, indent, path, item)
        for probe in self.probes.get(path, []):
            self.probe(file, indent, probe)

    def probe(self, file, indent, probe):
        """Writes a probe. Its names are those of no other, so that no glob brings them."""
        self.add(file, f"{indent}mod {probe.name} {{\n")
        for number, (asked, names) in enumerate(probe.asked):
            self.add(file, f"{indent}    use {asked}::{{")
            for one, (key, name) in enumerate(names):
                self.places[key] = self.here(file)
                self.add(file, f"{name} as __{number}_{one}, ")
            self.add(file, "};\n")
        self.add(file, indent + "}\n")

    def crate(self, crate):
        root = crate.root
        self.add(root, "".join(f"{it}\n" for it in crate.attributes))
        self.items(root, (folder_of(root),) * 2, "", (), crate.items)


def written(crate, probes=None):
    """What wrote a crate, with probes in some modules."""
    writer = Writer(probes or {})
    writer.crate(crate)
    return writer


def without_leaf(tree, number):
    """A tree without a leaf; None where nothing is left."""
    if tree.inner is None:
        return None if tree.number == number else tree
    inner = [it for it in (without_leaf(one, number) for one in tree.inner) if it]
    return Tree(tree.segments, tree.number, inner=inner) if inner else None


def without(graph, numbers):
    """A copy of a graph without the items and leaves of some numbers."""
    graph = copy.deepcopy(graph)
    for items in item_lists(graph):
        for item in items:
            for leaf in item.tree.leaves() if isinstance(item, Use) else ():
                if leaf.number in numbers and item.tree:
                    item.tree = without_leaf(item.tree, leaf.number)
        items[:] = [it for it in items
                    if it.number not in numbers and not (isinstance(it, Use) and it.tree is None)]
    return graph


def plain(graph):
    """A graph in which each constructor is seen where its type is, each variant has one, and the
    modules of crates that others use are public."""
    for crate in graph.crates[:-1]:
        for _, items in modules_of(crate):
            for item in items:
                item.visibility = "pub" if isinstance(item, Module) else item.visibility
    for items in item_lists(graph):
        for item in items:
            if item.before == "struct" and "(" in item.behind:
                item.behind = "(pub ());"
            elif item.before == "enum":
                item.behind = item.behind.replace(" { x: () }", "")
    return graph


def numbers_of(graph):
    """The numbers of the items and leaves of a graph, those of modules before those within them."""
    found = []
    for items in item_lists(graph):
        for item in items:
            leaves = item.tree.leaves() if isinstance(item, Use) else []
            found += [item.number] + [it.number for it in leaves if len(leaves) > 1]
    return found


def reordered(graph, shuffle):
    """A copy of a graph whose lists of items are in another order. What is fixed keeps its place,
    and no item is moved over it: so each stands behind the same textual macros."""
    graph = copy.deepcopy(graph)
    for items in item_lists(graph):
        begin = 0
        for end in [it for it, one in enumerate(items) if one.is_fixed] + [len(items)]:
            part = items[begin:end]
            shuffle(part)
            items[begin:end] = part
            begin = end + 1
    return graph
