"""A reference model: the rules of docs/RULES.md, computed over the lines of a script; each departure of the crate's own
code is a switch.

A `World` takes the lines that build and push, and answers paths and imports. With no departure it answers by the rules, by
version 1 of them. With all of DEPARTURES it answers as the crate's own code does. It reads lines that the program accepts, and
looks for no fault.
"""
from dataclasses import dataclass, field

# The rows of docs/DIFFERENCES.md by which an answer of the crate's own code can part from the rules.
ROUND = "a chain of imports that goes round never ends"
NAMESPACES = "a later namespace starts at the import on which an earlier one ended"
SEEN_THROUGH_PRELUDES = "the prelude place of a block asks visibility through the map that it reads"
PRELUDE_READ = "a prelude module may be read in another map than its own"
DEPARTURES = (ROUND, NAMESPACES, SEEN_THROUGH_PRELUDES, PRELUDE_READ)

BUILTIN_TYPES = "char bool str isize i8 i16 i32 i64 i128 usize u8 u16 u32 u64 u128 f16 f32 f64 f128".split()
TYPES, VALUES, MACROS = range(3)
NOTHING = (None, None, None)
FN_LIKE, ATTR, DERIVE = 1, 2, 4
STYLES = {"builtin": FN_LIKE, "eager": FN_LIKE, "attr": ATTR, "derive": DERIVE, "unimplemented": 7}
PROC_STYLES = {"custom_derive": DERIVE, "bang": FN_LIKE, "attr": ATTR}


class Panic(Exception):
    """The crate's own code looks a module up in a map that has it not."""


class Hang(Exception):
    """The crate's own code never returns."""


@dataclass
class Scope:
    """An item scope: bindings and import records of each namespace, and legacy macros (textual scope) by name."""

    bound: tuple = field(default_factory=lambda: ({}, {}, {}))
    records: tuple = field(default_factory=lambda: ({}, {}, {}))
    legacy: dict = field(default_factory=dict)
    unresolved: set = field(default_factory=set)

    def get(self, name):
        return tuple(items.get(name) for items in self.bound)


@dataclass
class Map:
    """The def map of a crate or of a block: its root, the module that contains it, and its preludes."""

    id: str
    krate: int
    root: int
    container: object = None
    prelude: object = None
    macro_use: dict = field(default_factory=dict)


@dataclass
class Answer:
    items: tuple
    yes: bool = True
    index: object = None
    flags: frozenset = frozenset()

    def text(self):
        words = ["-" if it is None else "/".join(it) for it in self.items]
        index = "-" if self.index is None else str(self.index)
        flags = "".join(it for it in "de" if it in self.flags) or "-"
        return " ".join([*words, "yes" if self.yes else "no", index, flags])


def over(upper, lower):
    return tuple(a if a is not None else b for a, b in zip(upper, lower))


def type_alone(definition, imported="none"):
    return ((definition, "pub", imported), None, None)


def item_of(word):
    return None if word == "-" else tuple(word.split("/"))


def module_of(definition):
    """The number of a module, where the definition is one."""
    kind, number = definition.split(":")
    return int(number) if kind == "mod" else None


class World:
    """The tables of a script, and what its questions mean."""

    def __init__(self, departures=()):
        self.departures = frozenset(departures)
        self.maps = {}
        self.map_of = []
        self.parents = []
        self.scopes = []
        self.children = []
        self.editions = []
        self.locals = []
        self.uses = []
        self.items = []
        self.variants = {}
        self.variant_count = 0
        self.macros = []
        self.flags = (set(), set(), set())

    # ---- Lines that build and push

    def add_module(self, map_id, parent):
        self.map_of.append(map_id)
        self.parents.append(parent)
        self.scopes.append(Scope())
        self.children.append({})
        return len(self.parents) - 1

    def run(self, words):
        """Does what a line says that builds or pushes; of a push, whether something was written."""
        return getattr(self, f"line_{words[0]}", lambda *_: None)(*words[1:])

    def line_crate(self, edition, _file):
        k = len(self.editions)
        self.editions.append(edition)
        self.locals.append({})
        self.maps[f"c{k}"] = Map(f"c{k}", k, self.add_module(f"c{k}", None))

    def line_module(self, parent, name, _visibility):
        parent = int(parent)
        self.children[parent][name] = self.add_module(self.map_of[parent], parent)

    def line_block(self, container, _ast):
        container = int(container)
        id_ = f"b{sum(it.startswith('b') for it in self.maps)}"
        self.maps[id_] = Map(id_, self.krate(container), self.add_module(id_, None), container)

    def line_use(self, m):
        self.uses.append(int(m))

    def line_item(self, kind, m):
        self.items.append((kind, int(m)))

    def line_variant(self, enum, name, shape):
        self.variants.setdefault(int(enum), {})[name] = (self.variant_count, shape)
        self.variant_count += 1

    def line_macro(self, kind, _m, style):
        if kind == "proc":
            styles = PROC_STYLES[style]
        elif style.startswith("declarative:"):
            styles = int(style.split(":")[1])
        else:
            styles = STYLES[style]
        self.macros.append((kind, styles))

    def line_prelude(self, map_id, m):
        self.maps[map_id].prelude = int(m)

    def line_macrouse(self, map_id, name, macro, x):
        self.maps[map_id].macro_use[name] = (macro, x)

    def line_extern(self, krate, name, m, x):
        self.locals[int(krate)][name] = (int(m), x)

    def line_legacy(self, m, name, macro):
        self.scopes[int(m)].legacy.setdefault(name, []).append(macro)

    def line_push(self, m, name, types, values, macros, by):
        m, items = int(m), (item_of(types), item_of(values), item_of(macros))
        scope = self.scopes[m]
        written = False
        for namespace, item in enumerate(items):
            if item is not None:
                written |= self.push_in(m, name, namespace, item, by)
        if items == NOTHING and name not in scope.unresolved:
            scope.unresolved.add(name)
            written = True
        return written

    def push_in(self, m, name, namespace, item, by):
        """A push of an item into one namespace (docs/RULES.md, "Pushes")."""
        scope, flag = self.scopes[m], (m, name)
        if namespace == VALUES and by.startswith("extern:"):
            by = "none"
        flags, old = self.flags[namespace], scope.bound[namespace].get(name)
        is_glob = by.startswith("glob:")
        if old is not None:
            reresolved = by != "none" and old[2] == by and old[0] != item[0]
            if is_glob or not (flag in flags or reresolved):
                return False
        scope.bound[namespace][name] = (item[0], item[1], by)
        if by != "none":
            scope.records[namespace][by] = item[2] if item[2] != "none" else item[0]
        (flags.add if is_glob else flags.discard)(flag)
        return True

    # ---- The tree of modules

    def krate(self, m):
        return self.maps[self.map_of[m]].krate

    def outside(self, m):
        return self.maps[self.map_of[m]].container

    def in_block(self, m):
        return self.map_of[m].startswith("b")

    def is_block_root(self, m):
        return self.in_block(m) and self.parents[m] is None

    def containing(self, m):
        return self.outside(m) if self.parents[m] is None else self.parents[m]

    def chain(self, m):
        chain = []
        while m is not None:
            chain.append(m)
            m = self.containing(m)
        return chain

    def home(self, m):
        while self.is_block_root(m):
            m = self.outside(m)
        return m

    def lifted(self, m, map_id):
        while self.in_block(m) and self.map_of[m] != map_id:
            m = self.outside(m)
        return m

    def sees(self, visibility, f, map_id=None):
        """Whether f sees it: as the crate's code asks through another map, that map has to have f."""
        kind, _, rest = visibility.partition(":")
        if kind == "pub":
            return True
        if kind == "crate":
            return self.krate(f) == int(rest)
        m = int(rest.split(":")[0])
        if f == m:
            return True
        if self.krate(f) != self.krate(m):
            return False
        through = map_id or self.map_of[f]
        lifted = self.lifted(m, through)
        if through != self.map_of[f] and lifted != f:
            raise Panic
        return lifted in self.chain(f)

    # ---- Paths

    def fits(self, expected, macro):
        kind, number = macro.split(":")
        styles = self.macros[int(number)][1] if self.macros[int(number)][0] == kind else 0
        return expected == "any" or bool(styles & (FN_LIKE if expected == "bang" else ATTR | DERIVE))

    def fitting(self, expected, items):
        macro = items[MACROS]
        return items if macro is None or self.fits(expected, macro[0]) else (*items[:MACROS], None)

    def legacy(self, m, name, expected):
        macros = self.scopes[m].legacy.get(name)
        if not macros or not self.fits(expected, macros[-1]):
            return NOTHING
        return (None, None, (macros[-1], "pub", "none"))

    def extern_prelude(self, local, name):
        found = local.get(name)
        if found is None:
            return NOTHING
        m, x = found
        return type_alone(f"mod:{m}", "none" if x == "none" else f"extern:{x}")

    def macro_use(self, map_id, name):
        found = self.maps[map_id].macro_use.get(name)
        if found is None:
            return NOTHING
        macro, x = found
        return (None, None, (macro, "pub", "none" if x == "none" else f"extern:{x}"))

    def prelude(self, map_id, name):
        m = self.maps[map_id].prelude
        if m is None:
            return NOTHING
        own = self.maps[map_id]
        if PRELUDE_READ in self.departures and self.krate(m) == own.krate and self.map_of[m] != map_id:
            raise Panic
        return self.scopes[m].get(name)

    def overlaid(self, *layers):
        """Layers, each of which shadows the next; one below a complete answer is not asked."""
        items = NOTHING
        for layer in layers:
            if None not in items:
                break
            items = over(items, layer())
        return items

    def by_2015_rule(self, krate, mode, kind):
        return self.editions[krate] == "2015" and (kind == "abs" or (kind == "plain" and mode == "import"))

    def plain_first(self, m, local, shadow, expected, name, is_last):
        own = self.scopes[m].get(name)
        scope = self.fitting(expected, own)
        builtin = NOTHING if self.in_block(m) or name not in BUILTIN_TYPES else type_alone(f"builtin:{name}")
        is_module = own[TYPES] is not None and module_of(own[TYPES][0]) is not None
        first = (builtin, scope) if shadow == "other" and is_last and is_module else (scope, builtin)
        map_id, is_root = self.map_of[m], self.is_block_root(m)
        return self.overlaid(
            lambda: over(self.legacy(m, name, expected), over(*first)),
            lambda: NOTHING if is_root else self.extern_prelude(local, name),
            lambda: self.macro_use(map_id, name),
            lambda: NOTHING if is_root else self.prelude(map_id, name),
        )

    def first_of_root(self, m, local, name):
        root = self.maps[f"c{self.krate(m)}"].root
        is_root = self.is_block_root(m)
        return self.overlaid(
            lambda: self.scopes[root].get(name),
            lambda: NOTHING if is_root else self.extern_prelude(local, name),
        )

    def single(self, m, local, mode, shadow, expected, kind, names):
        """What the module alone answers."""
        if kind == "crate" or kind.startswith("dollar:"):
            krate = self.krate(m) if kind == "crate" else int(kind.split(":")[1])
            return self.walk(m, type_alone(f"mod:{self.maps[f'c{krate}'].root}"), names, 0)
        if kind.startswith("super:"):
            return self.from_super(m, int(kind.split(":")[1]), names)
        if not names:
            return Answer(NOTHING)
        name, rest = names[0], names[1:]
        if self.by_2015_rule(self.krate(m), mode, kind):
            first = self.first_of_root(m, local, name)
        elif kind == "abs":
            first = self.extern_prelude(local, name)
            if first == NOTHING:
                return Answer(NOTHING, yes=False)
        else:
            first = self.plain_first(m, local, shadow, expected, name, not rest)
        return self.walk(m, first, rest, 1)

    def from_super(self, m, levels, names):
        outer = [it for it in self.chain(m) if not self.is_block_root(it)]
        if levels >= len(outer):
            return Answer(NOTHING)
        at = outer[levels]
        if self.map_of[at] != self.map_of[m]:
            return self.enter(at, names)
        return self.walk(m, type_alone(f"mod:{at}"), names, 0)

    def enter(self, m, names):
        """What `self::` and the names answer from a module."""
        home = self.home(m)
        answer = self.walk(home, type_alone(f"mod:{home}"), names, 0)
        return Answer(answer.items, answer.yes or self.in_block(home), answer.index, answer.flags)

    def preludes(self, map_id, f, local, mode, kind, names):
        """What the preludes of a crate's map answer, seen from f."""
        if kind not in ("plain", "abs") or not names:
            return Answer(NOTHING)
        name, rest = names[0], names[1:]
        if self.by_2015_rule(self.maps[map_id].krate, mode, kind):
            first = self.extern_prelude(local, name)
        elif kind == "abs":
            first = self.extern_prelude(local, name)
            if first == NOTHING:
                return Answer(NOTHING, yes=False)
        else:
            first = self.overlaid(
                lambda: self.extern_prelude(local, name),
                lambda: self.macro_use(map_id, name),
                lambda: self.prelude(map_id, name),
            )
        through = map_id if SEEN_THROUGH_PRELUDES in self.departures else None
        return self.walk(f, first, rest, 1, through)

    def walk(self, f, here, names, position, through=None):
        """The segments one after another, from what stands at a position."""
        for k, name in enumerate(names):
            at = here[TYPES]
            if at is None:
                return Answer(NOTHING, yes=False)
            m, stopped = module_of(at[0]), Answer((at, None, None), index=position + k)
            if m is None:
                return self.at_enum(at, name, k + 1 == len(names), stopped) if at[0].startswith("enum:") else stopped
            if self.krate(m) != self.krate(f):
                other = self.enter(m, names[k:])
                index = None if other.index is None else other.index + position + k
                return Answer(other.items, True, index, frozenset("d") | (other.flags & {"e"}))
            here = tuple(it if it and self.sees(it[1], f, through) else None for it in self.scopes[m].get(name))
        return Answer(here)

    def at_enum(self, at, name, is_last, stopped):
        found = self.variants.get(int(at[0].split(":")[1]), {}).get(name)
        if found is None:
            return stopped
        if not is_last:
            return Answer(NOTHING, yes=False)
        item = (f"variant:{found[0]}", at[1], "none")
        return Answer((item, None if found[1] == "record" else item, None), flags=frozenset("e"))

    def path(self, m, mode, shadow, expected, kind, *names, alone=False):
        """The words that a path prints."""
        m = int(m)
        local = self.locals[self.krate(m)]
        try:
            answer = self.single(m, local, mode, shadow, expected, kind, names)
            while not alone and self.is_block_root(m):
                m = self.outside(m)
                answer = merged(answer, self.single(m, local, mode, shadow, expected, kind, names))
            if not alone and self.in_block(m):
                map_ = self.maps[self.map_of[m]]
                answer = merged(answer, self.preludes(f"c{map_.krate}", map_.root, local, mode, kind, names))
        except Panic:
            return "panic"
        return answer.text()

    # ---- Chains of imports

    def chain_end(self, m, asked, namespace):
        """The last import of a chain of re-exports, and what it resolves to, or nothing."""
        scope, at, seen = self.scopes[m], asked, set()
        while True:
            record = scope.records[namespace].get(at)
            if record is None or not record.startswith("import:"):
                return at, record
            at = record
            use = int(at.split(":")[1])
            scope = self.scopes[self.uses[use]]
            if (use, at) in seen:
                raise Hang
            seen.add((use, at))

    def resolved(self, m, use, idx):
        """The words that `import` prints."""
        found, asked = [None, None, None], f"import:{int(use)}:{int(idx)}"
        for namespace in (MACROS, TYPES, VALUES):
            try:
                last, record = self.chain_end(int(m), asked, namespace)
            except Hang:
                if ROUND in self.departures:
                    return "hang"
                continue
            if NAMESPACES in self.departures:
                asked = last
            is_def = record is not None and not record.startswith(("glob:", "extern:"))
            if is_def and (namespace != MACROS or record.startswith(("macro2:", "rules:", "proc:"))):
                found[namespace] = f"{record}/pub/none"
        return " ".join(it or "-" for it in found)

    def answer(self, words):
        """What a line prints that asks a path or an import; nothing for any other."""
        if words[0] in ("path", "single"):
            return self.path(*words[1:], alone=words[0] == "single")
        if words[0] == "import":
            return self.resolved(*words[1:])
        return None


def merged(a, b):
    index = b.index if a.index is None else a.index if b.index is None else max(a.index, b.index)
    return Answer(over(a.items, b.items), a.yes or b.yes, index, a.flags | b.flags)
