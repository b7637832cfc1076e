"""Random crates dense in imports that have macros by `macro_rules!` too: textual ones by their
place, and exported ones."""
from crate_model import Graph, Item, Module, Tree, Use
from random_imports import Maker

MACROS = ["m", "n"]
EDITIONS = ["2021", "2021", "2018", "2024", "2015"]


class MacroMaker(Maker):
    """Makes a crate with macros. What textual scope goes by is fixed."""

    def macro(self, name, attributes):
        number = self.number()
        return Item(number, "", "macro_rules!", name, " { () => {} }", attributes, is_fixed=True)

    def add_macro(self, module, name):
        """Adds a macro, and imports of it: mostly behind it, from its module or one that begins
        there."""
        exported = self.chance(0.25)
        item = self.macro(name, ["#[macro_export]"] if exported else [])
        self.place(module, item)
        if exported:
            self.guess.declare((), ("macro",), name, None, module + (name,))
        for _ in range(self.random.choice([0, 1, 1, 2])):
            self.import_macro(module, item, exported)

    def import_macro(self, module, item, exported):
        items = self.lists[module]
        behind = [it for it in items[items.index(item):] if isinstance(it, Module) and not it.file]
        home = module
        if behind and self.chance(0.3):
            home = module + (self.random.choice(behind).name,)
        others = self.lists[home]
        first = items.index(item) + 1 if home == module and not self.chance(0.12) else 0
        bound = self.random.choice(self.names) if self.chance(0.4) else item.name
        taken = self.guess.spaces_of(home, bound) | self.guess.spaces_of(home, item.name)
        if taken and not self.chance(0.05):
            return
        words = self.random.choice(["", "pub(crate)", "pub(crate)", "pub(super)"])
        words, shown_to = self.visibility(home, words)
        if exported and self.chance(0.5):
            words, shown_to = self.visibility(home, "pub")
        tree = Tree([item.name], self.number(), bound if bound != item.name else "")
        place = self.random.randint(first, len(others))
        others.insert(place, Use(self.number(), words, "use", "", "", tree=tree))
        self.guess.declare(home, ("macro",), bound, shown_to, module + (item.name,))

    def add_macros(self):
        for module in self.modules():
            for _ in range(self.random.choice([0, 0, 1, 1, 2])):
                names = self.names if self.chance(0.3) else MACROS
                self.add_macro(module, self.random.choice(names))
        for items in self.lists.values():
            for item in items:
                if isinstance(item, Module) and self.chance(0.35):
                    item.attributes.append("#[macro_use]")
                    item.is_fixed = True
        self.guess.settle()


def macros_graph(random, seed):
    """A crate with macros and imports."""
    maker = MacroMaker(random, edition=random.choice(EDITIONS))
    maker.fill()
    maker.add_macros()
    maker.add_imports()
    maker.nest()
    return Graph([maker.crate], "macros", seed)
