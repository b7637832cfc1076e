"""Crate graphs of the size of real crates: their texts, written by rule, and what each name of them means by that rule."""


class Crate:
    """A crate: its files, and for each of its modules what each name is bound to."""

    def __init__(self, name, edition=2021, deps=(), cfgs=()):
        self.name, self.edition, self.deps, self.cfgs = name, edition, deps, cfgs
        self.root = f"{name}/lib.rs"
        self.files = {self.root: []}
        self.scopes = {(): {}}
        self.textual = {}
        self.inactive = 0  # how many items `cfg` takes away

    def module(self, path):
        """A module of that path, which is bound in its parent."""
        self.scopes[path] = {}
        if path:
            self.scopes[path[:-1]][path[-1]] = "type"

    def bind(self, path, name, meaning):
        self.scopes[path][name] = meaning

    def define(self, path, name):
        """A macro in the textual scope where the module ends."""
        self.textual.setdefault(path, []).append(name)

    def line(self, file, text):
        self.files.setdefault(file, []).append(text)

    def head(self):
        words = [f"crate:{self.name}", f"edition:{self.edition}"]
        words += [f"deps:{','.join(self.deps)}"] if self.deps else []
        words += [f"cfg:{','.join(self.cfgs)}"] if self.cfgs else []
        return " ".join(words)

    def text(self):
        parts = [f"//- /{self.root} {self.head()}", *self.files[self.root]]
        for file, lines in self.files.items():
            if file != self.root:
                parts += [f"//- /{file}", *lines]
        return parts

    def dump(self):
        """The lines of its def map: modules in the order of their names, and in each the names in order."""
        parts = []
        for path in sorted(self.scopes, key=lambda p: [part.encode() for part in p]):
            shown = ["crate" + "".join("::" + part for part in path)]
            for name in sorted(self.scopes[path], key=str.encode):
                shown.append(f"- {name} : {self.scopes[path][name]}")
            shown += [f"- (legacy) {name} : macro!" for name in sorted(self.textual.get(path, []))]
            parts.append("\n".join(shown))
        return [f"# {self.name}", "\n\n".join(parts)]


def by(meaning, way):
    """The same definitions, as they came by an import or a glob."""
    return " ".join(f"{word} ({way})" for word in meaning.split())


ITEMS = [
    ("Record", "pub struct {} {{ x: u8 }}", "type"),
    ("Tuple", "pub struct {}(pub u8);", "type value"),
    ("Union", "pub union {} {{ x: u8 }}", "type"),
    ("Enum", "pub enum {} {{ A, B(u8), C {{ x: u8 }} }}", "type"),
    ("Trait", "pub trait {} {{ fn f(&self); }}", "type"),
    ("Alias", "pub type {} = u8;", "type"),
    ("CONSTANT", "pub const {}: [u8; 2] = [1, 2];", "value"),
    ("STATIC", "pub static {}: &str = \"}}\";", "value"),
    ("function", "pub fn {}() {{ let x = {{ 1 }}; /* }} */ x; }}", "value"),
]


def declare(crate, file, path, mark):
    """Items of each kind, with a mark behind their names."""
    for name, form, meaning in ITEMS:
        crate.line(file, form.format(name + mark))
        crate.bind(path, name + mark, meaning)


def tree_of_files(size, weight=1):
    """Modules by files, three deep, each with so many items of each kind, some of which others import."""
    crate = Crate("tree")
    crate.module(())
    places = [((), crate.root, "tree")]
    for depth, width in enumerate((8 * size, 6, 5)):
        below = []
        for path, file, folder in places:
            for k in range(width):
                name = f"m{k}"
                beside = f"{folder}/{name}.rs" if k % 2 else f"{folder}/{name}/mod.rs"
                crate.line(file, f"pub mod {name};")
                crate.module((*path, name))
                below.append(((*path, name), beside, f"{folder}/{name}"))
        for number, (path, file, _) in enumerate(below):
            declare(crate, file, path, f"_{depth}")
            for copy in range(1, weight):
                declare(crate, file, path, f"_{depth}_{copy}")
            crate.line(file, f"use crate::m0::Tuple_0 as Root{number};")
            crate.bind(path, f"Root{number}", by("type value", "import"))
            if depth:
                names = f"Record_{depth - 1}, function_{depth - 1} as of_parent, self as parent"
                crate.line(file, f"pub use super::{{{names}}};")
                crate.bind(path, f"Record_{depth - 1}", by("type", "import"))
                crate.bind(path, "of_parent", by("value", "import"))
                crate.bind(path, "parent", by("type", "import"))
        places = below
    return [crate]


def facade(size):
    """Private modules behind chains of globs, where what is declared and imported shadows what they bring."""
    crate = Crate("facade")
    crate.module(())
    modules = 150 * size
    for k in range(modules):
        name, file = f"part{k}", f"facade/part{k}.rs"
        crate.line(crate.root, f"mod {name};")
        crate.line(crate.root, f"pub use {name}::*;")
        crate.module((name,))
        declare(crate, file, (name,), f"_{k}")
        for item, _, meaning in ITEMS:
            crate.bind((), f"{item}_{k}", by(meaning, "glob"))
        crate.line(file, f"fn private_{k}() {{}}\npub(crate) fn own_{k}() {{}}\npub fn shadowed_{k}() {{}}")
        for item in ("private", "own", "shadowed"):
            crate.bind((name,), f"{item}_{k}", "value")
        crate.bind((), f"own_{k}", by("value", "glob"))
        if k % 2:
            crate.line(crate.root, f"fn shadowed_{k}() {{}}")
            crate.bind((), f"shadowed_{k}", "value")
        else:
            crate.line(crate.root, f"use part{k}::Tuple_{k} as shadowed_{k};")
            crate.bind((), f"shadowed_{k}", "type (import) value (import)")
    return [crate, user_of(modules)]


def user_of(modules):
    """A crate that takes all from the facade by one glob, and some of it by name."""
    crate = Crate("user", deps=("facade",))
    crate.module(())
    crate.line(crate.root, "mod all { pub use facade::*; }")
    crate.module(("all",))
    for k in range(modules):
        for item, _, meaning in ITEMS:
            crate.bind(("all",), f"{item}_{k}", by(meaning, "glob"))
        crate.line(crate.root, f"use all::{{Union_{k}, Trait_{k} as T{k}}};\nuse ::facade::CONSTANT_{k};")
        crate.bind((), f"Union_{k}", by("type", "import"))
        crate.bind((), f"T{k}", by("type", "import"))
        crate.bind((), f"CONSTANT_{k}", by("value", "import"))
    return crate


def workspace(size):
    """Crates of which each depends on the one before under another name, and hands on what that has."""
    crates = []
    for k in range(40 * size):
        deps = (f"before=member{k - 1}",) if k else ()
        crate = Crate(f"member{k}", edition=2018 if k % 3 else 2021, deps=deps)
        crate.module(())
        for n in range(8):
            name, file = f"area{n}", f"member{k}/area{n}.rs"
            crate.line(crate.root, f"pub mod {name};")
            crate.module((name,))
            declare(crate, file, (name,), "")
            crate.line(file, f"pub struct Of{k}_{n};\nuse self::Of{k}_{n} as Own;")
            crate.line(file, f"pub(in crate::{name}) use self::function as near;")
            crate.bind((name,), f"Of{k}_{n}", "type value")
            crate.bind((name,), "Own", by("type value", "import"))
            crate.bind((name,), "near", by("value", "import"))
            crate.line(crate.root, f"pub use {name}::Of{k}_{n} as Handed{k}_{n};")
            crate.bind((), f"Handed{k}_{n}", by("type value", "import"))
            if k:
                crate.line(crate.root, f"pub use before::Handed{k - 1}_{n} as Again{k}_{n};")
                crate.bind((), f"Again{k}_{n}", by("type value", "import"))
                crate.line(file, f"use ::before::area{n}::{{Enum as E{k}, Enum::{{A, B as Second}}}};")
                crate.line(file, f"use before::{name} as there;")
                crate.bind((name,), f"E{k}", by("type", "import"))
                crate.bind((name,), "A", by("type value", "import"))
                crate.bind((name,), "Second", by("type value", "import"))
                crate.bind((name,), "there", by("type", "import"))
        crates.append(crate)
    return crates


def add_ring(crate, ring, length):
    """A ring of globs: each module of it has what all others declare."""
    names = [f"r{ring}_{k}" for k in range(length)]
    for k, name in enumerate(names):
        crate.line(crate.root, f"mod {name} {{")
        crate.line(crate.root, f"    pub use super::{names[(k + 1) % length]}::*;")
        crate.line(crate.root, f"    pub fn f{k}() {{}} pub struct S{k}; fn hidden{k}() {{}}")
        crate.line(crate.root, "}")
        crate.module((name,))
        for other in range(length):
            came = other != k
            crate.bind((name,), f"f{other}", by("value", "glob") if came else "value")
            crate.bind((name,), f"S{other}", by("type value", "glob") if came else "type value")
        crate.bind((name,), f"hidden{k}", "value")


def rings(size):
    """Rings of globs."""
    crate = Crate("rings")
    crate.module(())
    for ring in range(12 * size):
        add_ring(crate, ring, 24)
    return [crate]


def add_ladder(crate, ladder, depth):
    """A ladder of shadowing, by files: each module has a glob of the one before, and an import that shadows a name of it, in
    one namespace of two."""
    items = {"type": "pub struct X {}", "value": "pub fn X() {}"}
    first = f"l{ladder}_0"
    crate.line(crate.root, f"mod {first};")
    crate.line(f"{crate.name}/{first}.rs", f"{' '.join(items.values())} pub fn below() {{}}")
    crate.module((first,))
    crate.bind((first,), "X", "type value")
    crate.bind((first,), "below", "value")
    for k in range(1, depth + 1):
        before, rung, beside = f"l{ladder}_{k - 1}", f"l{ladder}_{k}", f"z{ladder}_{k}"
        shadowed, other = ("type", "value") if k % 2 else ("value", "type")
        crate.line(crate.root, f"mod {rung};\nmod {beside};")
        crate.line(f"{crate.name}/{rung}.rs", f"pub use super::{before}::*;\npub use super::{beside}::X;")
        crate.line(f"{crate.name}/{beside}.rs", items[shadowed])
        crate.module((rung,))
        crate.module((beside,))
        crate.bind((beside,), "X", shadowed)
        ways = {shadowed: by(shadowed, "import"), other: by(other, "glob")}
        crate.bind((rung,), "X", f"{ways['type']} {ways['value']}")
        crate.bind((rung,), "below", by("value", "glob"))


def ladders(size):
    """Ladders of shadowing."""
    crate = Crate("ladders")
    crate.module(())
    for ladder in range(4 * size):
        add_ladder(crate, ladder, 60)
    return [crate]


class Unbound(Crate):
    """A crate of which is not noted what its names mean."""

    def module(self, path):
        pass

    def bind(self, path, name, meaning):
        pass


def alone(add, count):
    """A crate with one ring or one ladder, to be measured."""
    crate = Unbound("alone")
    add(crate, 0, count)
    return [crate]


def chain(count, is_best):
    """Imports of which each renames the one before it, or in the worst order the one behind it."""
    crate = Crate("chain")
    lines = [f"use a{k} as a{k + 1};" for k in range(count)]
    crate.files[crate.root] = ["struct a0;", *(lines if is_best else lines[::-1])]
    return [crate]


def platforms(size):
    """Files of platforms by `cfg` and `#[path]`, variants by globs, macros, and traits without names."""
    crate = Crate("platforms", edition=2018, cfgs=("unix",))
    crate.module(())
    for k in range(120 * size):
        name = f"sys{k}"
        for system in ("unix", "windows"):
            crate.line(crate.root, f"#[cfg({system})]\n#[path = \"{system}/imp{k}.rs\"]\nmod {name};")
            crate.line(f"platforms/{system}/imp{k}.rs", f"pub fn on_{system}() {{}}")
        crate.module((name,))
        file = f"platforms/unix/imp{k}.rs"
        declare(crate, file, (name,), "")
        crate.bind((name,), "on_unix", "value")
        crate.line(file, "use self::Enum::*;\n#[cfg(not(unix))] use self::missing;")
        crate.line(file, "#[cfg_attr(unix, cfg(windows))] fn gone() {}")
        for variant, meaning in (("A", "type value"), ("B", "type value"), ("C", "type")):
            crate.bind((name,), variant, by(meaning, "glob"))
        crate.line(file, f"#[macro_export]\nmacro_rules! exported_{k} {{ ($x:expr) => {{ $x; {{}} }} }}")
        crate.bind((), f"exported_{k}", "macro!")
        crate.define((name,), f"exported_{k}")
        crate.line(crate.root, f"use {name}::Trait as Trait{k};\npub use crate::exported_{k} as again_{k};")
        crate.bind((), f"Trait{k}", by("type", "import"))
        crate.bind((), f"again_{k}", by("macro!", "import"))
        crate.line(crate.root, f"cfg_if! {{ if #[cfg(windows)] {{ fn way_{k}() {{}} }} else {{ struct Way_{k} {{}} }} }}")
        crate.bind((), f"Way_{k}", "type")
        crate.inactive += 3  # a module, a use and a function
    return [crate]


GRAPHS = {graph.__name__: graph for graph in (tree_of_files, facade, workspace, rings, ladders, platforms)}
# What is measured and not compared: the words of a table of docs/COST.md, and the crates.
COSTS = {
    **{f"ring | {count:,} globs": (alone, add_ring, count) for count in (100, 400, 1000)},
    **{f"ladder | {depth:,} rungs": (alone, add_ladder, depth) for depth in (100, 1000, 10000)},
    **{f"chain, best order | {count:,} imports": (chain, count, True) for count in (10**4, 10**5)},
    **{f"chain, worst order | {count:,} imports": (chain, count, False) for count in (10**4, 10**5)},
}


def fixture(crates):
    lines = []
    for crate in crates:
        lines += crate.text()
    return "\n".join(lines) + "\n"


def expected(crates):
    lines = []
    for crate in crates:
        lines += crate.dump()
    return "\n".join(lines) + "\n"
