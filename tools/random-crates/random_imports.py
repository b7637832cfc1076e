"""Random crates that are dense in imports: few names in three namespaces, globs, re-exports, rings,
ladders, enums."""
from crate_model import Crate, Graph, Item, Module, Tree, Use
from guessed_names import Guess, least, sees

MODULES = ["a", "b", "c", "d", "e", "g", "h"]
NAMES = ["X", "Y", "f", "m", "E"]
# The words before a name and behind it, and the namespaces that it is in.
SHAPES = [
    (4, "struct", ";", ("type", "value")),
    (2, "struct", " {}", ("type",)),
    (2, "struct", "(pub ());", ("type", "value")),
    (2, "struct", "(());", ("type", "value")),
    (1, "struct", "(pub(crate) ());", ("type", "value")),
    (1, "struct", "(pub (), pub(super) ());", ("type", "value")),
    (4, "fn", "() {}", ("value",)),
    (1, "const", ": () = ();", ("value",)),
    (1, "static", ": () = ();", ("value",)),
    (1, "trait", " {}", ("type",)),
    (1, "type", " = ();", ("type",)),
    (1, "union", " { x: () }", ("type",)),
]
VARIANTS = [("", ("type", "value")), ("(())", ("type", "value")), (" { x: () }", ("type",))]
VISIBILITIES = ["pub"] * 14 + ["", "", "pub(crate)", "pub(crate)", "pub(super)", "pub(in)"]


class Maker:
    """Makes a crate: its modules, what they declare, and imports that mostly lead somewhere."""

    def __init__(self, random, name="main", edition="2021"):
        self.random, self.crate = random, Crate(name, edition)
        self.lists, self.guess, self.last = {(): self.crate.items}, Guess(), 0
        self.names = random.sample(NAMES, random.randint(2, 4))
        self.module_names = MODULES

    def number(self):
        self.last += 1
        return self.last

    def chance(self, share):
        return self.random.random() < share

    def visibility(self, module, words=None):
        """A visibility in a module: its words, and the module that it shows something to."""
        word = self.random.choice(VISIBILITIES) if words is None else words
        if word == "pub":
            return word, None
        if word == "" or not module:
            return ("", module) if word != "pub(crate)" else (word, ())
        if word == "pub(crate)":
            return word, ()
        if word == "pub(super)":
            return word, module[:-1]
        around = module[: self.random.randint(1, len(module))]
        return f"pub(in {'::'.join(('crate',) + around)})", around

    def place(self, module, item):
        """Puts an item somewhere into a module."""
        items = self.lists[module]
        items.insert(self.random.randint(0, len(items)), item)

    def add_module(self, outer, name):
        path = outer + (name,)
        if path in self.guess.modules or "type" in self.guess.spaces_of(outer, name):
            return None
        words, shown_to = self.visibility(outer)
        module = Module(self.number(), words, "mod", name, "")
        self.place(outer, module)
        self.lists[path] = module.items
        self.guess.add_module(path)
        self.guess.declare(outer, ("type",), name, shown_to)
        return path

    def add_item(self, module, name):
        _, before, behind, spaces = self.random.choices(SHAPES, [it[0] for it in SHAPES])[0]
        if set(spaces) & self.guess.spaces_of(module, name) and not self.chance(0.02):
            return
        words, shown_to = self.visibility(module)
        self.place(module, Item(self.number(), words, before, name, behind))
        fields = {"(());": module, "(pub(crate) ());": (), "(pub (), pub(super) ());": module[:-1]}
        self.guess.declare(module, spaces, name, shown_to)
        if behind in fields:
            self.guess.declare(module, ("value",), name, least(shown_to, fields[behind]))

    def add_enum(self, module, name):
        path = module + (name,)
        if path in self.guess.modules or "type" in self.guess.spaces_of(module, name):
            return
        words, shown_to = self.visibility(module)
        self.guess.add_module(path, True)
        self.guess.declare(module, ("type",), name, shown_to)
        variants = []
        for variant in self.random.sample(self.names, self.random.randint(1, 2)):
            behind, spaces = self.random.choice(VARIANTS)
            variants.append(variant + behind)
            self.guess.declare(path, spaces, variant, shown_to)
        behind = f" {{ {', '.join(variants)} }}"
        self.place(module, Item(self.number(), words, "enum", name, behind))

    def modules(self, enums=False):
        return [it for it, is_enum in self.guess.modules.items() if enums or not is_enum]

    def fill(self):
        """Makes modules, and what they declare."""
        for name in self.random.sample(self.module_names, self.random.randint(2, 6)):
            outer = self.random.choice(self.modules()) if self.chance(0.35) else ()
            self.add_module(outer, name)
        for module in self.modules():
            for _ in range(self.random.choice([0, 1, 1, 2, 2, 3])):
                make = self.add_enum if self.chance(0.15) else self.add_item
                make(module, self.random.choice(self.names))
        self.guess.settle()

    def reaches(self, home, target):
        """Whether a module sees another one and all around it, as far as they are declared."""
        table = self.guess.declared
        steps = [table.get(target[:it], {}).get(("type", target[it])) for it in range(len(target))]
        return all(it is None or sees(home, it[1]) for it in steps)

    def source(self, home):
        """A module or an enum that another module may import from."""
        others = [it for it in self.modules(True) if it != home or self.chance(0.05)]
        seen = [it for it in others if self.reaches(home, it)]
        return self.random.choice(seen if seen and not self.chance(0.05) else others)

    def aliases(self, home):
        """Ways to modules by names that other modules bind: the module that binds it, the name, the
        module."""
        known = self.guess.modules
        for module, table in self.guess.bound.items():
            for (space, name), found in table.items():
                for one, its in found.items() if space == "type" and name != "_" else ():
                    if one in known and one != module + (name,) and sees(home, its):
                        yield module, name, one

    def path_to(self, home, target, depth=0):
        """The segments of a path to a module; now and then by a name that was imported."""
        others = [it for it in self.aliases(home) if it[2] == target] if depth < 2 else []
        if others and self.chance(0.4):
            module, name, _ = self.random.choice(others)
            if module == home and self.chance(0.5):
                return [name]
            return self.path_to(home, module, depth + 1) + [name]
        if target[: len(home)] == home and len(target) > len(home) and self.chance(0.4):
            inner = list(target[len(home):])
            return inner if self.chance(0.6) else ["self", *inner]
        if home and target[: len(home) - 1] == home[:-1] and self.chance(0.4):
            return ["super", *target[len(home) - 1:]]
        return ["crate", *target]

    def add_use(self, home, words, tree):
        self.place(home, Use(self.number(), words, "use", "", "", tree=tree))

    def add_glob(self, home=None, source=None, words=None):
        """Adds a glob. In the root few are of the root itself."""
        home = self.random.choice(self.modules()) if home is None else home
        source = self.source(home) if source is None else source
        if source == home:
            return
        words, shown_to = self.visibility(home, words)
        self.add_use(home, words, Tree(self.path_to(home, source), self.number(), is_glob=True))
        self.guess.imports.append((home, shown_to, source, None, None))

    def wanted(self, home, source):
        """A name that a module shows: mostly one that means one thing in each namespace."""
        shown = self.guess.names(source, home)
        clear = [it for it, by in shown.items() if all(len(them) == 1 for them in by.values())]
        if clear and not self.chance(0.05):
            return self.random.choice(sorted(clear))
        return self.random.choice(self.names) if self.chance(0.2) else None

    def shown_with(self, home, source, name):
        """A visibility for an import of a name, seldom a greater one than that of what it names."""
        words, shown_to = self.visibility(home)
        found = self.guess.names(source, home).get(name, {})
        its = [one for them in found.values() for one in them.values()]
        if its and not self.chance(0.1) and all(least(one, shown_to) != shown_to for one in its):
            return "", home
        return words, shown_to

    def add_named(self, home=None, source=None, name=None, bound=None):
        """Adds an import of a name, under that or another one."""
        home = self.random.choice(self.modules()) if home is None else home
        source = self.source(home) if source is None else source
        name = name or self.wanted(home, source)
        if name is None:
            return
        as_name = self.random.choice(self.names + MODULES[:2]) if self.chance(0.35) else name
        as_name = bound or as_name
        spaces = set(self.guess.names(source, home).get(name, {}))
        if spaces & self.guess.spaces_of(home, as_name) and not self.chance(0.03):
            return
        words, shown_to = self.shown_with(home, source, name)
        tree = Tree(self.path_to(home, source) + [name], self.number())
        tree.rename = as_name if as_name != name else ""
        if "type" in spaces and self.chance(0.03):
            tree.rename = as_name = "_"
        elif "type" in spaces and self.chance(0.06):
            tree = self.of_type_alone(tree)
        self.add_use(home, words, tree)
        self.guess.imports.append((home, shown_to, source, name, as_name))

    def some_modules(self, fewest, most):
        modules = self.modules()
        count = min(len(modules), self.random.randint(fewest, most))
        return self.random.sample(modules, count)

    def of_type_alone(self, leaf):
        """The leaf as `self` in a list, which imports no value and no macro."""
        inner = Tree(["self"], leaf.number, leaf.rename)
        return Tree(leaf.segments, self.number(), inner=[inner])

    def add_ladder(self):
        """Modules that each have a glob of the one before, and an import that shadows a name of
        it."""
        modules = self.some_modules(3, 5)
        for before, module in zip(modules, modules[1:]):
            self.add_glob(module, before, "pub")
            self.guess.settle()
            self.add_named(module, None, None, self.random.choice(self.names))

    def add_ring(self):
        """Modules that each have a glob of the next, or an import of it by name, and the last of
        the first."""
        modules = self.some_modules(2, 4)
        for module, other in zip(modules, modules[1:] + modules[:1]):
            if module == other:
                continue
            if self.chance(0.7):
                words = self.random.choice(["pub", "pub", "pub", "", "pub(crate)"])
                self.add_glob(module, other, words)
            elif other:
                self.add_named(module, other[:-1], other[-1], self.random.choice(MODULES))

    def nest(self):
        """Puts some imports of one module into a list, by what their paths have in common."""
        for items in self.lists.values():
            uses = [it for it in items if isinstance(it, Use) and it.tree.inner is None]
            for one, other in zip(uses, uses[1:]):
                is_plain = one.visibility == other.visibility and one.tree.inner is None
                if is_plain and self.chance(0.3):
                    joined = in_list(one.tree, other.tree)
                    if joined:
                        other.tree = joined
                        items[:] = [it for it in items if it is not one]

    def add_imports(self, most=14):
        for _ in range(self.random.choice([0, 1, 1, 2])):
            self.random.choice([self.add_ladder, self.add_ring])()
            self.guess.settle()
        for number in range(self.random.randint(3, most)):
            self.random.choice([self.add_named, self.add_named, self.add_glob])()
            if number % 2:
                self.guess.settle()


def in_list(one, other):
    """Two leaves in a list behind what their paths have in common; `self` for one that ends
    there."""
    same = 0
    limit = min(len(it.segments) - (not it.is_glob) for it in (one, other))
    while same < limit and one.segments[same] == other.segments[same]:
        same += 1
    if not same:
        return None
    inner = [Tree(it.segments[same:], it.number, it.rename, it.is_glob) for it in (one, other)]
    return Tree(one.segments[:same], inner=inner)


def imports_graph(random, seed):
    """A crate that is dense in imports."""
    maker = Maker(random, edition=random.choice(["2021", "2021", "2018", "2024"]))
    maker.fill()
    maker.add_imports()
    maker.nest()
    return Graph([maker.crate], "imports", seed)
