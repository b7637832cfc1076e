"""What stands around the modules of a crate, as its text says: extern preludes, roots of macros,
the standard prelude, and the textual macros at each `use`."""
from crate_model import Module, Use

BUILTIN = {"char", "bool", "str", "isize", "i8", "i16", "i32", "i64", "i128", "usize", "u8", "u16",
           "u32", "u64", "u128", "f16", "f32", "f64", "f128"}
MACRO_USE = ("#[macro_use", "#![macro_use")
EXPORTED = "#[macro_export]"


def bound_by(item):
    """The name that an `extern crate` binds."""
    return item.behind.strip(" ;").rpartition(" ")[2] or item.name


class Around:
    """What the modules of a crate of a graph have around them. Crates are named by `(name,)`."""

    def __init__(self, graph, crate):
        self.crate, self.is_2015 = crate, crate.edition == "2015"
        before = graph.crates[: graph.crates.index(crate)]
        self.library = "core" if "#![no_std]" in crate.attributes else "std"
        self.prelude = (self.library, "prelude", f"rust_{crate.edition}")
        self.externs = {it: (it,) for it in ("core", self.library, *(it.name for it in before))}
        self.macro_roots = [((self.library,), None)]
        self.textual = {}  # by the number of a `use`: the macros before it, each by its path
        self.exported = {}  # by name, the paths of exported macros
        self.injected = ()
        if self.is_2015:
            self.injected = (self.library,)
        for item in crate.items:
            if item.before == "extern crate":
                self.add_extern(item)
        self.add_textual(crate.items, (crate.name,), {})

    def is_exported(self, path):
        return any(path in paths for paths in self.exported.values())

    def target(self, item):
        """The crate that an `extern crate` names."""
        return (self.crate.name if item.name == "self" else item.name,)

    def add_extern(self, item):
        """An `extern crate` in the root adds to the extern prelude, and perhaps macros; of macros
        of one name the last counts."""
        self.externs[bound_by(item)] = self.target(item)
        for one in item.attributes:
            if one.startswith("#[macro_use"):
                some = one[len("#[macro_use("):-2].split(", ") if "(" in one else None
                self.macro_roots.append((self.target(item), some))

    def add_textual(self, items, home, macros):
        """Walks items in the order of the text; gives the textual macros behind them."""
        counts = {}
        for item in items:
            if item.before == "macro_rules!":
                number = counts[item.name] = counts.get(item.name, -1) + 1
                path = "::".join((*home, item.name)) + (f"#{number}" if number else "")
                macros = {**macros, item.name: path}
                if EXPORTED in item.attributes:
                    self.exported.setdefault(item.name, set()).add(path)
            elif isinstance(item, Module):
                inner = self.add_textual(item.items, (*home, item.name), macros)
                words = [*item.attributes, *item.begins]
                if any(it.startswith(MACRO_USE) for it in words):
                    macros = inner
            elif isinstance(item, Use):
                self.textual[item.number] = macros
        return macros
