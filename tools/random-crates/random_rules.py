"""Random graphs of crates for the rules around modules: editions, extern preludes, `extern crate`,
standard preludes, builtin types, raw names, `cfg`, files and paths of modules, attributes of
crates.
"""
from crate_model import Graph, Item, Module, Tree, Use
from random_imports import MODULES, NAMES
from random_macros import MACROS, MacroMaker

EDITIONS = ["2015", "2018", "2018", "2021", "2021", "2024"]
# Names that stand around modules, so that those of modules meet them.
AROUND = ["core", "std", "alloc", "Option", "Some", "u8", "str", "Vec", "Clone", "k", "l"]
RAW = ["r#match", "r#type", "r#try"]
STANDARD = ["core::option::Option", "std::option::Option", "core::option::Option::Some",
            "std::vec::Vec", "core::fmt", "std::fmt", "core::clone::Clone", "std::vec",
            "core::fmt::Error", "std", "core", "Option", "Some", "Vec", "Clone", "u8", "str",
            "println", "alloc::vec::Vec", "Option::Some"]
STANDARD_GLOBS = ["core::option::Option", "std::prelude::v1", "core::fmt"]
BEGINNINGS = ["#![no_implicit_prelude]", "#![macro_use]"]
HOLDING = ["#[cfg(on)]", "#[cfg(all(on, not(off)))]"]
ATTRIBUTES = ["#![no_implicit_prelude]", "#![no_std]"]


class RulesMaker(MacroMaker):
    """Makes a crate that knows others."""

    def __init__(self, random, name, edition, others):
        super().__init__(random, name, edition)
        self.names = random.sample(NAMES, 2) + random.sample(AROUND, random.randint(0, 2))
        self.names += random.sample(RAW, 1) if self.chance(0.2) else []
        self.module_names = MODULES + random.sample(AROUND[:9], random.randint(0, 2))
        self.others, self.last = others, 1000 * len(others)
        for other in others:
            self.know(other)

    def know(self, other):
        """Takes over what another crate binds: its modules have its name before them."""
        self.guess.add_module((f"::{other.crate.name}",))
        for path in other.modules(True):
            its = (f"::{other.crate.name}",) + path
            self.guess.add_module(its, other.guess.modules[path])
            hidden = (f"::{other.crate.name}", "?")
            for slot, found in other.guess.bound.get(path, {}).items():
                one, shown_to = next(iter(found.items()))
                self.guess.declared[its][slot] = (one, None if shown_to is None else hidden)

    def modules(self, enums=False):
        found = super().modules(enums)
        foreign = [it for it in found if it[:1] and it[0].startswith("::")]
        own = [it for it in found if it not in foreign]
        return own + [it for it in foreign if self.chance(0.6)] if enums else own

    def path_to(self, home, target, depth=0):
        if not target[:1] or not target[0].startswith("::"):
            return super().path_to(home, target, depth)
        name = target[0][2:]
        if self.crate.edition == "2015" and depth == 0 and self.chance(0.2):
            return ["crate", name, *target[1:]]
        return ["", name, *target[1:]] if self.chance(0.3) else [name, *target[1:]]

    def in_edition(self, home, segments):
        """The segments of a path as the edition wants it: those of 2015 begin at the root."""
        if self.crate.edition != "2015" or segments[0] in ("crate", "self", "super", ""):
            return segments
        is_foreign = segments[0] in [it.crate.name for it in self.others]
        return segments if is_foreign else [*home, *segments]

    def add_use(self, home, words, tree):
        if not self.chance(0.05):
            tree.segments = self.in_edition(home, tree.segments)
        super().add_use(home, words, tree)

    def add_extern_crate(self, home, other):
        name = self.random.choice([other.crate.name] * 3 + MODULES[:2] + self.names[:1])
        if "type" in self.guess.spaces_of(home, name):
            return
        words, shown_to = self.visibility(home, self.random.choice(["", "", "pub", "pub(crate)"]))
        behind = ";" if name == other.crate.name else f" as {name};"
        words_of_macros = ["#[macro_use]", "#[macro_use]", "#[macro_use(m)]"]
        attributes = [self.random.choice(words_of_macros)] if not home and self.chance(0.4) else []
        item = Item(self.number(), words, "extern crate", other.crate.name, behind, attributes)
        item.is_fixed = bool(attributes)
        self.place(home, item)
        self.guess.declare(home, ("type",), name, shown_to, (f"::{other.crate.name}",))

    def add_standard(self):
        """Adds an import of what stands around modules."""
        home, is_glob = self.random.choice(self.modules()), self.chance(0.15)
        known = STANDARD_GLOBS if is_glob else STANDARD
        if self.crate.edition == "2015" and not self.chance(0.1):
            known = [it for it in known if it.startswith("std")]
        segments = self.random.choice(known).split("::")
        if not is_glob and self.chance(0.15):
            segments = [self.random.choice(MACROS)]
        bound = self.random.choice(self.names + ["B"])
        if not is_glob and self.guess.spaces_of(home, bound):
            return
        words, shown_to = self.visibility(home, self.random.choice(["", "pub", "pub(crate)"]))
        prefix = [""] if len(segments) > 1 and self.chance(0.15) else []
        rename = "" if is_glob or bound == segments[-1] else bound
        tree = Tree(prefix + segments, self.number(), rename, is_glob)
        self.place(home, Use(self.number(), words, "use", "", "", tree=tree))
        if not is_glob:
            self.guess.declare(home, ("type",), bound, shown_to, tuple(segments))

    def add_odd(self):
        """Adds an import of a module by `self`, `super` or `crate` alone, or the crate by name."""
        home, name = self.random.choice(self.modules()), self.random.choice(self.names + ["B"])
        if "type" in self.guess.spaces_of(home, name):
            return
        words, shown_to = self.visibility(home, self.random.choice(["", "pub", "pub(crate)"]))
        kind = self.random.choice(["self", "super", "crate", "list", "item"])
        leaf = Tree(["self"], self.number(), name)
        if kind == "item":
            its = Item(self.number(), words, "extern crate", "self", f" as {name};")
        else:
            tree = Tree([] if kind == "list" else [kind], self.number(), inner=[leaf])
            if kind == "crate" and self.chance(0.5):
                tree = Tree(["crate"], leaf.number, name)
            its = Use(self.number(), words, "use", "", "", tree=tree)
        self.place(home, its)
        target = home if kind in ("self", "list") else home[:-1] if kind == "super" else ()
        self.guess.declare(home, ("type",), name, shown_to, target)

    def add_attributes(self):
        """Adds attributes that turn what names mean."""
        for items in self.lists.values():
            for item in items:
                if item.before == "struct" and self.chance(0.1):
                    item.attributes.append("#[non_exhaustive]")
                elif item.before == "fn" and self.chance(0.05):
                    item.attributes.append("#[test]")
                elif isinstance(item, Module) and self.chance(0.06):
                    item.begins.append(self.random.choice(BEGINNINGS))
                    item.is_fixed = True

    def add_cfgs(self):
        """Adds `cfg`s that hold to what is there, and items with `cfg`s that do not."""
        for module in self.modules():
            items = self.lists[module]
            for item in items:
                if self.chance(0.06):
                    item.attributes.insert(0, self.random.choice(HOLDING))
            if self.chance(0.2):
                away = self.random.choice(["#[cfg(off)]", "#[cfg(not(on))]"])
                name = self.random.choice(self.names)
                self.place(module, Item(self.number(), "pub", "struct", name, ";", [away]))

    def add_files(self):
        """Puts modules into files, but for those within a module that has a path of its own."""
        for path, items in self.lists.items():
            for item in items:
                if isinstance(item, Module) and self.chance(0.3):
                    own = f"path:p{item.number}.rs"
                    item.file = self.random.choice(["name", "name", "mod", own])
                    if item.file.startswith("path:"):
                        item.attributes.append(f'#[path = "{item.file[5:]}"]')

    def make(self):
        self.fill()
        for other in self.others:
            if self.crate.edition == "2015" or self.chance(0.3):
                home = () if self.chance(0.8) else self.random.choice(self.modules())
                self.add_extern_crate(home, other)
        if self.chance(0.4):
            self.add_macros()
        self.guess.settle()
        for _ in range(self.random.randint(0, 3)):
            self.random.choice([self.add_standard, self.add_standard, self.add_odd])()
        self.guess.settle()
        self.add_imports(8)
        self.nest()
        self.add_attributes()
        self.add_cfgs()
        self.add_files()
        if self.chance(0.12):
            self.crate.attributes.append(self.random.choice(ATTRIBUTES))


def rules_graph(random, seed):
    """A graph of up to three crates."""
    makers = []
    for name in ["k", "l"][: random.choice([0, 0, 1, 1, 2])] + ["main"]:
        maker = RulesMaker(random, name, random.choice(EDITIONS), list(makers))
        maker.make()
        makers.append(maker)
    return Graph([it.crate for it in makers], "rules", seed, ["on"])
