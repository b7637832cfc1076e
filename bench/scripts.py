#!/usr/bin/env python3
"""Generates scripts for `defmap_tool` (docs/SCRIPT.md): worlds of a shape and a size, with questions.

usage: bench/scripts.py SHAPE MODULES [--paths N] [--sees N] [--no-pushes]

The same arguments give the same script: the random numbers come from a generator with a fixed seed.

thin       a tree at most 20 deep, where each module declares five structs
line       the same, where each module lies in the one before
crates     thin trees of 20 modules, each a crate that knows four crates before it
blocks     a thin tree, with half of the modules in blocks, up to eight in one another
histories  a module for each ten, each with 60 pushes under six names, by globs, imports and declarations
flat, row  modules alone, all in the root or each in the one before: nothing is pushed or asked
roots      blocks of one module, each with its root alone: nothing is pushed or asked
"""
import argparse
import random
import sys
from dataclasses import dataclass, field

WORDS = "alpha beta gamma delta resolver scope visit item_tree lower name path import_map util db body expr".split()
TYPES = "Struct Type Config Visitor LowerCtx".split()
ITEMS = 5
DEEPEST = 20
MOST_SEGMENTS = 12
IN_CRATE = 20
KNOWN_CRATES = 4
BLOCKS_DEEP = 8
PUSHES = 60
NAMES = 6


@dataclass
class Script:
    """The lines of a script, by what they do."""

    build: list = field(default_factory=list)
    pushes: list = field(default_factory=list)
    paths: list = field(default_factory=list)
    sees: list = field(default_factory=list)

    def modules(self):
        """How many modules there are, those that crates and blocks bring among them."""
        return sum(it.startswith(("crate ", "module ", "block ")) for it in self.build)

    def segments(self):
        """How many segments the paths have, all together."""
        return sum(len(it.split()) - len("path MODULE MODE SHADOW EXPECT KIND".split()) for it in self.paths)

    def text(self, *parts):
        """The lines of these parts. Questions, late pushes and dumps come behind a line that checks."""
        lines = self.build + (self.pushes if "pushes" in parts else [])
        if "check" in parts:
            lines = lines + ["check"]
        behind = {"late": self.pushes, "paths": self.paths, "sees": self.sees, "dumps": self.dumps()}
        for part, more in behind.items():
            if part in parts:
                lines = lines + more
        return "\n".join(lines) + "\n"

    def names(self):
        """How many names the pushes bind: each module's names, each once."""
        return len({tuple(it.split()[1:3]) for it in self.pushes})

    def dumps(self):
        """A dump of each module."""
        return [f"dump {m}" for m in range(self.modules())]


@dataclass
class Tree:
    """What modules there are: of each its parent, name, depth, number of children, and the structs that it declares."""

    parents: list = field(default_factory=list)
    names: list = field(default_factory=list)
    depths: list = field(default_factory=list)
    children: list = field(default_factory=list)
    structs: list = field(default_factory=list)

    def add_root(self):
        """A root, and its number."""
        self.parents.append(None)
        self.names.append(None)
        self.depths.append(0)
        self.children.append(0)
        self.structs.append([])
        return len(self.parents) - 1

    def add(self, parent, word):
        """A module that is named by a word and a number, and its own number."""
        m = self.add_root()
        self.parents[m] = parent
        self.names[m] = f"{word}{self.children[parent]}"
        self.depths[m] = self.depths[parent] + 1
        self.children[parent] += 1
        return m

    def route(self, m):
        """The names from a root to a module, or nothing where there are too many."""
        names = []
        while self.parents[m] is not None:
            if len(names) == MOST_SEGMENTS:
                return None
            names.append(self.names[m])
            m = self.parents[m]
        return names[::-1]


def path(m, words):
    return f"path {m} other module any {words}"


def struct(number, visibility):
    return f"struct:{number}/{visibility}/none - -"


def declare_modules(script, tree):
    """A push for each module that has a name, into its parent."""
    for m, parent in enumerate(tree.parents):
        if parent is not None:
            script.pushes.append(f"push {parent} {tree.names[m]} mod:{m}/pub/none - - none")


def declare_structs(script, tree, chance, crate_of):
    """Five structs for each module, public, of the module or of its crate."""
    modules = range(len(tree.parents))
    script.build += [f"item struct {m}" for m in modules for _ in range(ITEMS)]
    declare_modules(script, tree)
    for m in modules:
        for k in range(ITEMS):
            name = f"{chance.choice(TYPES)}{k}"
            visibility = chance.choice(["pub", f"in:{m}:implicit", f"crate:{crate_of(m)}"])
            tree.structs[m].append(name)
            script.pushes.append(f"push {m} {name} {struct(m * ITEMS + k, visibility)} none")


def ask_routes(script, tree, chance, count):
    """Paths from anywhere to a struct, from the crate on, or by the struct's name alone where the route is long."""
    size = len(tree.parents)
    for _ in range(count):
        m, to = chance.randrange(size), chance.randrange(size)
        route, name = tree.route(to), chance.choice(tree.structs[to])
        script.paths.append(path(to, f"plain {name}") if route is None else path(m, " ".join(["crate", *route, name])))


def ask_sights(script, size, chance, count):
    """Whether one module sees what is visible in another, both drawn."""
    for _ in range(count):
        seen = chance.randrange(size)
        script.sees.append(f"sees in:{seen}:implicit {chance.randrange(size)}")


def thin(size, paths, sees, is_line=False):
    """A tree of modules, each with five structs."""
    chance, tree, script = random.Random(1), Tree(), Script(["crate 2021 0"])
    tree.add_root()
    for m in range(1, size):
        parent = m - 1 if is_line else chance.randrange(m)
        while not is_line and tree.depths[parent] >= DEEPEST:
            parent = chance.randrange(m)
        tree.add(parent, chance.choice(WORDS))
        script.build.append(f"module {parent} {tree.names[m]} pub")
    declare_structs(script, tree, chance, lambda m: 0)
    ask_routes(script, tree, chance, paths)
    ask_sights(script, size, chance, sees)
    return script


def line(size, paths, sees):
    """A line of modules, each with five structs."""
    return thin(size, paths, sees, is_line=True)


def crates(size, paths, sees):
    """Crates of 20 modules, each of which knows four crates before it by name."""
    chance, tree, script = random.Random(1), Tree(), Script()
    for c in range(-(-size // IN_CRATE)):
        script.build.append(f"crate 2021 {c}")
        root = tree.add_root()
        for m in range(root + 1, min(root + IN_CRATE, size)):
            tree.add(chance.randrange(root, m), chance.choice(WORDS))
            script.build.append(f"module {tree.parents[m]} {tree.names[m]} pub")
    known = {}
    for c in range(1, -(-size // IN_CRATE)):
        known[c] = sorted(chance.sample(range(c), min(c, KNOWN_CRATES)))
        script.build += [f"extern {c} dep{other} {other * IN_CRATE} none" for other in known[c]]
    declare_structs(script, tree, chance, lambda m: m // IN_CRATE)
    for _ in range(paths):
        m = chance.randrange(size)
        own = m // IN_CRATE
        other = chance.choice(known.get(own, [own]))
        to = chance.randrange(other * IN_CRATE, min((other + 1) * IN_CRATE, size))
        words = [f"plain dep{other}", f"abs dep{other}", f"dollar:{other}"] if other != own else ["crate"]
        script.paths.append(path(m, " ".join([chance.choice(words), *(tree.route(to) or []), chance.choice(tree.structs[to])])))
    ask_sights(script, size, chance, sees)
    return script


def blocks(size, paths, sees):
    """A tree of modules with blocks in them. Paths are asked in blocks, for structs that they or what is around them declare."""
    chance, tree, script = random.Random(1), Tree(), Script(["crate 2021 0"])
    tree.add_root()
    around, levels = {}, [0]
    for m in range(1, size):
        parent = chance.randrange(m)
        while tree.depths[parent] >= DEEPEST or levels[parent] >= BLOCKS_DEEP:
            parent = chance.randrange(m)
        if m % 2:
            tree.add(parent, chance.choice(WORDS))
            script.build.append(f"module {parent} {tree.names[m]} pub")
        else:
            tree.add_root()
            around[m] = parent
            script.build.append(f"block {parent} {m}")
        levels.append(levels[parent] + 1 - m % 2)
    declare_structs(script, tree, chance, lambda m: 0)
    roots = list(around) or [0]
    for _ in range(paths):
        m = at = chance.choice(roots)
        for _ in range(chance.randrange(3)):
            at = around.get(at, at)
        script.paths.append(path(m, f"plain {chance.choice(tree.structs[at] + ['Nothing'])}"))
    ask_sights(script, size, chance, sees)
    return script


def histories(size, paths, sees):
    """Few modules with long histories: each name is pushed ten times, by globs, by imports and without."""
    chance, tree, script = random.Random(1), Tree(), Script(["crate 2021 0"])
    tree.add_root()
    for m in range(1, max(size // 10, 2)):
        tree.add(chance.randrange(m), chance.choice(WORDS))
        script.build.append(f"module {tree.parents[m]} {tree.names[m]} pub")
    count = len(tree.parents)
    script.build += [f"{what} {m}" for what in ("use", "item struct") for m in range(count)]
    declare_modules(script, tree)
    for m in range(count):
        tree.structs[m] = [f"{TYPES[k % ITEMS]}{k}" for k in range(NAMES)]
        for number in range(PUSHES):
            visibility = chance.choice(["pub", "crate:0", f"in:{m}:implicit"])
            by = chance.choice(["none", f"import:{m}:{number}", f"glob:{m}:{number}"])
            script.pushes.append(f"push {m} {chance.choice(tree.structs[m])} {struct(chance.randrange(count), visibility)} {by}")
    ask_routes(script, tree, chance, paths)
    ask_sights(script, count, chance, sees)
    return script


def flat(size, _paths, _sees):
    """Modules alone, all in the root."""
    return Script(["crate 2021 0"] + [f"module 0 m{m} pub" for m in range(1, size)])


def row(size, _paths, _sees):
    """Modules alone, each in the one before."""
    return Script(["crate 2021 0"] + [f"module {m - 1} m pub" for m in range(1, size)])


def roots(size, _paths, _sees):
    """Blocks of one module, each with its root alone."""
    return Script(["crate 2021 0"] + [f"block 0 {m}" for m in range(1, size)])


SHAPES = {it.__name__: it for it in (thin, line, crates, blocks, histories, flat, row, roots)}


def main():
    words = argparse.ArgumentParser(usage="bench/scripts.py SHAPE MODULES [--paths N] [--sees N] [--no-pushes]")
    words.add_argument("shape", choices=SHAPES)
    words.add_argument("modules", type=int)
    words.add_argument("--paths", type=int, default=0)
    words.add_argument("--sees", type=int, default=0)
    words.add_argument("--no-pushes", action="store_true")
    words = words.parse_args()
    if words.modules < 1:
        sys.exit("a world has at least one module")
    script = SHAPES[words.shape](words.modules, words.paths, words.sees)
    parts = ["check", "paths", "sees"] + ["pushes"] * (not words.no_pushes)
    sys.stdout.write(script.text(*parts))


if __name__ == "__main__":
    main()
