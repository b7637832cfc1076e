"""What modules of a crate that is being made bind, roughly: so that most of the imports that are
made lead somewhere.

It is no answer that is compared. Modules are named by their paths, visibilities by the path of the
module that they show something to, `None` for all.
"""
ROUNDS = 6


def sees(module, shown_to):
    return shown_to is None or module[: len(shown_to)] == shown_to


def least(one, other):
    """The less permissive of two visibilities."""
    if one is None or other is None:
        return one if other is None else other
    return max(one, other, key=len)


class Guess:
    """What modules and enums bind: for each name and namespace, the definitions and to whom they
    are shown."""

    def __init__(self):
        self.declared = {}  # by module: by namespace and name, a definition and a visibility
        self.imports = []  # (home, visibility, source, name, bound); a glob binds no name
        self.modules = {(): None}  # by path; an enum counts as a module, with whether it is one
        self.bound = {}

    def add_module(self, path, is_enum=False):
        self.modules[path] = is_enum
        self.declared.setdefault(path, {})

    def declare(self, module, spaces, name, shown_to, definition=None):
        table = self.declared.setdefault(module, {})
        for space in spaces:
            table[space, name] = (definition or (module + (name,)), shown_to)

    def spaces_of(self, module, name):
        """The namespaces in which a name is declared in a module, or imported there by name."""
        named = {space for space, one in self.declared.get(module, {}) if one == name}
        for home, _, source, wanted, bound in self.imports:
            if home == module and bound == name:
                named |= {space for space, one in self.bound.get(source, {}) if one == wanted}
        return named

    def settle(self):
        """Looks anew what all imports bring, some times: so what comes through long chains may be
        missed."""
        bound = self.first()
        for _ in range(ROUNDS):
            new = self.first()
            for home, shown_to, source, name, as_name in self.imports:
                if name is not None:
                    self.bring(bound, new, home, shown_to, source, {name: as_name}, {})
            kept = {home: dict(table) for home, table in new.items()}
            for home, shown_to, source, name, _ in self.imports:
                if name is None:
                    self.bring(bound, new, home, shown_to, source, None, kept.get(home, {}))
            if new == bound:
                break
            bound = new
        self.bound = bound

    def first(self):
        return {module: {slot: {one: shown_to} for slot, (one, shown_to) in table.items()}
                for module, table in self.declared.items()}

    def bring(self, bound, new, home, shown_to, source, names, hidden):
        """Adds what an import brings into its module, but for what is hidden there."""
        table = new.setdefault(home, {})
        for (space, name), found in bound.get(source, {}).items():
            slot = (space, name if names is None else names.get(name))
            if slot[1] is None or slot in hidden:
                continue
            for definition, its in found.items():
                if sees(home, its):
                    table.setdefault(slot, {}).setdefault(definition, least(its, shown_to))

    def names(self, module, home):
        """The names that a module shows to another, with their namespaces and definitions."""
        found = {}
        for (space, name), definitions in self.bound.get(module, {}).items():
            if any(sees(home, its) for its in definitions.values()):
                found.setdefault(name, {})[space] = definitions
        return found
