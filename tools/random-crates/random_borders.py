"""Random graphs of crates that are dense in what stands around modules: crates of libraries, by
`--extern` and `extern crate`, under other names too; macros of `macro_use`; names of the standard
prelude and of builtin types, with modules and globs that bring the same names; edition 2015.
"""
from crate_model import Graph, Item, Tree, Use
from random_imports import MODULES, NAMES
from random_macros import MACROS
from random_rules import RulesMaker

EDITIONS = ["2015", "2015", "2018", "2021", "2021", "2024"]
# Names that stand around modules, so that items, modules and globs have the same.
AROUND = ["core", "std", "alloc", "Option", "Some", "u8", "str", "Vec", "Clone", "println", "k",
          "l", "m", "n"]
MODULE_NAMES = ["core", "std", "alloc", "Option", "u8", "str", "k", "l"]
INNER = {"core": ["fmt", "option::Option", "clone::Clone"], "Option": ["Some", "None"],
         "std": ["vec::Vec", "fmt", "option::Option::Some"], "alloc": ["vec::Vec", "vec"]}


class BordersMaker(RulesMaker):
    """Makes a crate that knows others, and has names that stand around its modules."""

    def __init__(self, random, name, edition, others):
        super().__init__(random, name, edition, others)
        self.names = random.sample(NAMES, 2) + random.sample(AROUND, random.randint(1, 3))
        self.module_names = MODULES + random.sample(MODULE_NAMES, random.randint(1, 3))

    def first_name(self):
        """A name that stands around: mostly one that the crate has somewhere, too."""
        both = [it for it in self.names + self.module_names if it in AROUND]
        return self.random.choice(both if both and self.chance(0.7) else AROUND)

    def add_around(self):
        """Adds an import whose path begins with a name that stands around modules."""
        home, first = self.random.choice(self.modules()), self.first_name()
        segments = [first]
        if first in INNER and self.chance(0.4):
            segments += self.random.choice(INNER[first]).split("::")
        elif self.chance(0.2):
            segments.append(self.random.choice(self.names))
        is_glob = len(segments) > 1 and self.chance(0.1) or first in MODULE_NAMES \
            and self.chance(0.1)
        if self.chance(0.12):
            segments.insert(0, "")
        bound = self.random.choice(self.names + ["B"])
        if not is_glob and self.guess.spaces_of(home, bound) and not self.chance(0.1):
            return
        words, shown_to = self.visibility(home, self.random.choice(["", "pub", "pub(crate)"]))
        rename = "" if is_glob or bound == segments[-1] else bound
        self.add_use(home, words, Tree(segments, self.number(), rename, is_glob))
        if not is_glob:
            self.guess.declare(home, ("type",), bound, shown_to, tuple(segments))

    def add_shared_macro(self):
        """Adds a textual macro beside an item of its name, and a public import of both."""
        module, name = self.random.choice(self.modules()), self.random.choice(self.names)
        bound = self.random.choice([*self.names, *MACROS, "B"])
        is_taken = self.guess.spaces_of(module, bound) or bound == name
        if "value" in self.guess.spaces_of(module, name) or is_taken:
            return
        item = Item(self.number(), "pub", "fn", name, "() {}")
        macro = self.macro(name, ["#[macro_export]"] if self.chance(0.2) else [])
        items = self.lists[module]
        place = self.random.randint(0, len(items))
        tree = Tree([name], self.number(), bound)
        use = Use(self.number(), "pub", "use", "", "", tree=tree)
        items[place:place] = [item, macro] if self.chance(0.5) else [macro, item]
        items.insert(self.random.randint(place + 2, len(items)), use)
        self.guess.declare(module, ("value",), name, None)
        self.guess.declare(module, ("value", "macro"), bound, None, module + (name,))

    def add_plain(self, home, name, words="", bound=""):
        """Adds an import of a name by a path of that alone."""
        bound = bound or name
        if self.guess.spaces_of(home, bound):
            return
        rename = bound if bound != name else ""
        self.place(home, Use(self.number(), words, "use", "", "",
                             tree=Tree([name], self.number(), rename)))
        self.guess.declare(home, ("type",), bound, None if words else home, (name,))

    def add_beside_glob(self):
        """Adds a glob that brings what stands around modules, and an import of that name beside
        it."""
        source, home = self.random.choice(self.modules()), self.random.choice(self.modules())
        crates = [it.crate.name for it in self.others]
        name = self.random.choice(["Option", "Some", "u8", "core", "println", *crates, *crates])
        self.add_plain(source, name, "pub")
        if source != home:
            self.add_glob(home, source, self.random.choice(["", "pub"]))
        self.add_plain(home, name, "", self.random.choice([*self.names, "B"]))

    def add_macros_of(self, other):
        """Adds an item by which macros of another crate are known, and imports of them."""
        table = other.guess.bound.get((), {})
        macros = sorted(name for space, name in table if space == "macro")
        name = self.random.choice([*MODULES, "B"])
        if not macros or "type" in self.guess.spaces_of((), name):
            return
        some = f"({self.random.choice(macros)})" if self.chance(0.2) else ""
        item = Item(self.number(), self.random.choice(["", "pub"]), "extern crate",
                    other.crate.name, f" as {name};", [f"#[macro_use{some}]"], is_fixed=True)
        self.place((), item)
        self.guess.declare((), ("type",), name, None, (f"::{other.crate.name}",))
        for _ in range(self.random.randint(1, 2)):
            home = self.random.choice(self.modules())
            words = self.random.choice(["", "pub", "pub(crate)"])
            self.add_plain(home, self.random.choice(macros), words, self.random.choice(self.names))

    def add_exported(self):
        """Adds an exported macro, which the root declares."""
        module, name = self.random.choice(self.modules()), self.random.choice(MACROS + self.names)
        if "macro" not in self.guess.spaces_of((), name):
            self.place(module, self.macro(name, ["#[macro_export]"]))
            self.guess.declare((), ("macro",), name, None, module + (name,))

    def add_externs(self):
        """Adds items by which crates of the graph, and of the standard library, get names."""
        for other in self.others:
            is_needed = self.crate.edition == "2015" and not self.chance(0.2)
            for _ in range(self.random.choice([0, 0, 1, 1, 2])):
                home = () if self.chance(0.75) else self.random.choice(self.modules())
                self.add_extern_crate(home, other)
            if is_needed:
                self.add_extern_crate((), other)
        if self.chance(0.15):
            self.add_odd()

    def make(self):
        self.fill()
        self.add_externs()
        if self.chance(0.75):
            self.add_macros()
        for _ in range(self.random.choice([0, 0, 1])):
            self.add_shared_macro()
        for _ in range(self.random.choice([0, 1, 1, 2])):
            self.add_exported()
        self.guess.settle()
        for other in self.others:
            if self.chance(0.5):
                self.add_macros_of(other)
        for _ in range(self.random.choice([0, 0, 1])):
            self.add_beside_glob()
        self.guess.settle()
        for _ in range(self.random.randint(2, 6)):
            self.random.choice([self.add_around, self.add_around, self.add_standard])()
        self.guess.settle()
        self.add_imports(8)
        self.nest()
        if self.chance(0.05):
            self.crate.attributes.append("#![no_std]")


def borders_graph(random, seed):
    """A graph of up to three crates, mostly of two."""
    makers = []
    for name in ["k", "l"][: random.choice([0, 1, 1, 1, 1, 2])] + ["main"]:
        maker = BordersMaker(random, name, random.choice(EDITIONS), list(makers))
        maker.make()
        makers.append(maker)
    return Graph([it.crate for it in makers], "borders", seed)
