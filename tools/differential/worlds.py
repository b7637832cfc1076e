#!/usr/bin/env python3
"""Generates random worlds with questions, as scripts for `defmap_tool` (docs/SCRIPT.md), over the whole language but `rules`.

usage: tools/differential/worlds.py SEED
       tools/differential/worlds.py --check [--bin FOLDER] [--count N]

prints the script of a seed. The same seed gives the same script.

--check makes N worlds (300 if left out), and runs them by the program that `rt ci` built, or that of FOLDER. It looks whether
each script is accepted up to the line that it means to be refused, whether each kind of line and of answer is reached, and
whether the same seed gives the same script. It ends with a line 'N passed, M failed'.
"""
import argparse
import os
import random
import subprocess
import sys
from collections import Counter

sys.dont_write_bytecode = True
sys.path.append(os.path.dirname(os.path.dirname(os.path.abspath(__file__))))
from judging import Tally, built
from scoping import TYPES, World, module_of

NAMES = "a b c d S T f u8 str m".split()
EDITIONS = ("2015", "2018", "2021", "2024")
KINDS = "fn struct union enum const static trait type".split()
SHAPES = ("record", "tuple", "unit")
MACRO_STYLES = ["builtin", "eager", "attr", "derive", "unimplemented"] + [f"declarative:{b}" for b in range(8)]
PROC_STYLES = ("custom_derive", "bang", "attr")
QUESTIONS = ("path", "single", "import", "sees", "max", "min", "dump", "dumpmap")
BUILDING = "crate module block use item variant macro prelude macrouse extern legacy raw push check build".split()
# Lines that are refused whatever stands before them, with the state that they need.
ALWAYS_REFUSED = (
    ("sees", "BadLine"),
    ("check\t", "BadLine"),
    ("crate 02021 0", "BadLine"),
    ("path 0 other module any super:256", "BadLine"),
    ("path 99 other module any plain a", "Unknown"),
    ("push 99 a - - - none", "Unknown"),
    ("dumpmap b99", "Unknown"),
    ("import 0 99 0", "Unknown"),
    ("crate 2021 0", "NeedsBuilder"),
    ("check", "NeedsBuilder"),
)
REFUSED_BUILDING = (
    ("dump 0", "NeedsWorld"),
    ("build", "NeedsWorld"),
    ("module 99 a pub", "NoSuchModule"),
    ("block 99 0", "NoSuchModule"),
    ("use 99", "NoSuchModule"),
    ("item fn 99", "NoSuchModule"),
    ("macro rules 99 builtin", "NoSuchModule"),
    ("variant 99 V unit", "NoSuchEnum"),
    ("prelude b99 0", "NoSuchCrate"),
    ("macrouse c99 a rules:0 none", "NoSuchCrate"),
    ("extern 99 a 0 none", "NoSuchCrate"),
    ("legacy 99 a rules:0", "Unknown"),
)
# What a table is given that is not there, and the fault that `check` tells then.
DANGLING = (
    ("push 0 z mod:99/pub/none - - none", "UnknownModule"),
    ("push 0 z builtin:u8/crate:99/none - - none", "UnknownCrate"),
    ("push 0 z builtin:u8/pub/glob:99:0 - - glob:99:1", "UnknownUse"),
    ("push 0 z - fn:99/pub/none - none", "UnknownItem"),
    ("push 0 z variant:99/in:0:implicit/none - - none", "UnknownItem"),
    ("push 0 z - - proc:99/pub/none none", "UnknownMacro"),
    ("prelude c0 99", "UnknownModule"),
    ("extern 0 z 99 7", "UnknownModule"),
    ("legacy 0 z macro2:99", "UnknownMacro"),
)


class Draft:
    """A script as it is written, with the world that it has made so far."""

    def __init__(self, seed):
        self.chance = random.Random(seed)
        self.world = World()
        self.lines = []
        self.refusal = None
        self.spaced = self.chance.random() < 0.05

    def add(self, line):
        self.world.run(line.split())
        self.lines.append(line.replace(" ", "  ") + " " if self.spaced and self.chance.random() < 0.3 else line)

    def likely(self, share):
        return self.chance.random() < share

    def module(self):
        return self.chance.randrange(len(self.world.parents))

    def name(self):
        return self.chance.choice(NAMES)

    # ---- Words

    def visibility(self, m):
        """Mostly one of those that a declaration in m may have."""
        draw = self.chance.random()
        if draw < 0.4:
            return "pub"
        if draw < 0.55:
            return f"crate:{self.chance.randrange(len(self.world.editions))}"
        to = self.chance.choice(self.world.chain(m)) if self.likely(0.6) else self.module()
        return f"in:{to}:{self.chance.choice(('explicit', 'implicit'))}"

    def imported(self, kinds=("import", "glob", "extern")):
        draw = self.chance.random()
        if draw < 0.35 or not self.world.uses:
            return "none"
        kind = self.chance.choice(kinds)
        if kind == "extern":
            return f"extern:{self.chance.randrange(3)}"
        return f"{kind}:{self.chance.randrange(len(self.world.uses))}:{self.chance.randrange(3)}"

    def macro(self):
        if not self.world.macros:
            return None
        number = self.chance.randrange(len(self.world.macros))
        return f"{self.world.macros[number][0]}:{number}"

    def definition(self, kinds):
        """A definition of one of these kinds of items, or of any, or a module, a builtin type or a variant."""
        world, draw = self.world, self.chance.random()
        if draw < 0.3:
            return f"mod:{self.module()}"
        if draw < 0.4 and world.variant_count:
            return f"variant:{self.chance.randrange(world.variant_count)}"
        if draw < 0.45:
            return f"builtin:{self.chance.choice(('u8', 'str'))}"
        fitting = [n for n, it in enumerate(world.items) if it[0] in kinds]
        if fitting and self.likely(0.9):
            number = self.chance.choice(fitting)
        elif world.items:
            number = self.chance.randrange(len(world.items))
        else:
            return f"mod:{self.module()}"
        return f"{world.items[number][0]}:{number}"

    def item(self, m, definition, kinds=("import", "glob", "extern")):
        return f"{definition}/{self.visibility(m)}/{self.imported(kinds)}"

    def map_id(self):
        return self.chance.choice(list(self.world.maps))

    # ---- Building

    def grow(self, crates, modules):
        for k in range(crates):
            self.add(f"crate {self.chance.choice(EDITIONS)} {k}")
        for _ in range(modules):
            m = self.module()
            free = [it for it in NAMES if it not in self.world.children[m]]
            if self.likely(0.3) or not free:
                self.add(f"block {m} {self.chance.randrange(9)}")
            else:
                self.add(f"module {m} {self.chance.choice(free)} {self.visibility(m)}")

    def declare(self, count):
        for _ in range(count):
            draw, m = self.chance.random(), self.module()
            if draw < 0.2:
                self.add(f"use {m}")
            elif draw < 0.6:
                self.add(f"item {self.chance.choice(KINDS)} {m}")
            elif draw < 0.75:
                self.declare_variant()
            else:
                kind = self.chance.choice(("macro2", "rules", "proc"))
                style = self.chance.choice(PROC_STYLES if kind == "proc" else MACRO_STYLES)
                self.add(f"macro {kind} {m} {style}")

    def declare_variant(self):
        enums = [n for n, it in enumerate(self.world.items) if it[0] == "enum"]
        if enums:
            enum = self.chance.choice(enums)
            free = [it for it in NAMES if it not in self.world.variants.get(enum, {})]
            if free:
                self.add(f"variant {enum} {self.chance.choice(free)} {self.chance.choice(SHAPES)}")

    def fill_preludes(self, count):
        for _ in range(count):
            draw, macro = self.chance.random(), self.macro()
            x = self.chance.choice(("none", "0", "5"))
            if draw < 0.3:
                at = self.map_id()
                own = [m for m, it in enumerate(self.world.map_of) if it == at]
                self.add(f"prelude {at} {self.chance.choice(own) if self.likely(0.5) else self.module()}")
            elif draw < 0.55:
                self.add(f"extern {self.chance.randrange(len(self.world.editions))} {self.name()} {self.root()} {x}")
            elif draw < 0.75 and macro:
                self.add(f"macrouse {self.map_id()} {self.name()} {macro} {x}")
            elif macro:
                self.add(f"legacy {self.module()} {self.name()} {macro}")

    def root(self):
        """The root of a crate, or seldom any module."""
        roots = [it.root for it in self.world.maps.values() if it.id.startswith("c")]
        return self.chance.choice(roots) if self.likely(0.8) else self.module()

    def bind_children(self):
        for m, children in enumerate(self.world.children):
            for name, child in children.items():
                if self.likely(0.85):
                    self.add(f"push {m} {name} mod:{child}/{self.visibility(m)}/none - - none")

    def push(self):
        m, macro = self.module(), self.macro()
        types = values = macros = "-"
        if self.likely(0.7):
            types = self.item(m, self.definition(("struct", "union", "enum", "trait", "type")))
        if self.likely(0.35):
            values = self.item(m, self.definition(("fn", "const", "static", "struct")), ("import", "glob"))
        if macro and self.likely(0.25):
            macros = self.item(m, macro)
        self.add(f"push {m} {self.name()} {types} {values} {macros} {self.imported()}")

    # ---- Questions

    def route(self, kind, m):
        """Names that lead on from where a path of that kind begins in m, as long as there are some."""
        world, names, at = self.world, [], self.beginning(kind, m)
        while at is not None and self.likely(0.8):
            types = self.onward(at)
            if not types:
                break
            name = self.chance.choice(types)
            names.append(name)
            at = self.reached(at, name)
        return names if names and self.likely(0.85) else [*names, self.name()]

    def beginning(self, kind, m):
        world = self.world
        if kind == "crate":
            return world.maps[f"c{world.krate(m)}"].root
        if kind.startswith("dollar:"):
            return world.maps[f"c{kind.split(':')[1]}"].root
        if kind.startswith("super:"):
            outer = [it for it in world.chain(m) if not world.is_block_root(it)]
            level = int(kind.split(":")[1])
            return outer[level] if level < len(outer) else None
        return m

    def onward(self, at):
        """The names that lead on from a module, or from an enum's definition."""
        if isinstance(at, str):
            return list(self.world.variants.get(int(at.split(":")[1]), {}))
        scope = self.world.scopes[at]
        return [name for items in scope.bound for name in items] + list(scope.legacy)

    def reached(self, at, name):
        item = None if isinstance(at, str) else self.world.scopes[at].get(name)[TYPES]
        if item is None:
            return None
        m = module_of(item[0])
        return m if m is not None else item[0] if item[0].startswith("enum:") else None

    def kind(self, m):
        draw = self.chance.random()
        if draw < 0.5:
            return "plain"
        if draw < 0.6:
            return "abs"
        if draw < 0.7:
            return "crate"
        if draw < 0.8:
            return f"dollar:{self.chance.randrange(len(self.world.editions))}"
        return f"super:{self.chance.randrange(3)}"

    def path(self, what):
        m = self.module()
        kind = self.kind(m)
        names = self.route(kind, m)
        if kind in ("plain", "abs") and self.likely(0.35):
            named = list(self.world.locals[self.world.krate(m)])
            if named:
                name = self.chance.choice(named)
                names = [name, *self.route("dollar", self.world.locals[self.world.krate(m)][name][0])]
        elif self.likely(0.1):
            names = [self.name() for _ in range(self.chance.randrange(4))]
        mode, shadow = self.chance.choice(("import", "other")), self.chance.choice(("module", "other"))
        expected = self.chance.choice(("any", "any", "bang", "attr"))
        self.lines.append(" ".join([what, str(m), mode, shadow, expected, kind, *names]))

    def ask_import(self):
        uses = self.world.uses
        if not uses:
            return
        use, idx = self.chance.randrange(len(uses)), self.chance.randrange(3)
        m = uses[use] if self.likely(0.5) else self.module()
        recorded = [it for records in self.world.scopes[m].records for it in records if it.startswith("import:")]
        if recorded and self.likely(0.7):
            _, use, idx = self.chance.choice(recorded).split(":")
        self.lines.append(f"import {m} {use} {idx}")

    def ask(self):
        what = self.chance.choice(("path",) * 6 + ("single",) * 2 + ("import",) * 3 + ("sees", "max", "min", "dump", "dumpmap"))
        m = self.module()
        if what in ("path", "single"):
            self.path(what)
        elif what == "import":
            self.ask_import()
        elif what == "sees":
            self.lines.append(f"sees {self.visibility(m)} {self.module()}")
        elif what in ("max", "min"):
            self.lines.append(f"{what} {self.map_id()} {self.visibility(m)} {self.visibility(self.module())}")
        else:
            self.lines.append(f"dump {m}" if what == "dump" else f"dumpmap {self.map_id()}")

    # ---- The whole

    def write(self):
        size = self.chance.random()
        self.grow(self.chance.randrange(1, 4), self.chance.randrange(2, 4 + int(12 * size)))
        self.declare(self.chance.randrange(4, 10 + int(14 * size)))
        self.fill_preludes(self.chance.randrange(6))
        self.bind_children()
        for _ in range(self.chance.randrange(5, 15 + int(40 * size))):
            self.push()
        for name in NAMES:
            if self.likely(0.03):
                self.add(f"raw {name}")
        if self.likely(0.06):
            line, fault = self.chance.choice(DANGLING)
            self.lines += [line, "check"]
            self.refusal = fault
            return self
        self.add("check")
        for _ in range(self.chance.randrange(20, 50)):
            self.ask()
            if self.likely(0.1):
                self.push()
        if self.likely(0.2):
            self.add("build")
            self.grow(0, self.chance.randrange(4))
            self.declare(self.chance.randrange(4))
            self.fill_preludes(self.chance.randrange(3))
            if self.likely(0.2):
                line, self.refusal = self.chance.choice(REFUSED_BUILDING)
                self.lines.append(line)
                return self
            self.add("check")
            for _ in range(self.chance.randrange(10, 30)):
                self.ask()
        if self.likely(0.1):
            line, self.refusal = self.chance.choice(ALWAYS_REFUSED)
            self.lines.append(line)
        return self


def script_of(seed):
    """The lines of a world, and the fault of its last line, if that is to be refused."""
    draft = Draft(seed).write()
    return draft.lines, draft.refusal


def kinds_of_answer(printed):
    """Which kinds of answer were printed."""
    for line in printed.splitlines():
        words = line.split()
        if line.startswith("refused "):
            yield f"refused {words[2]}"
        elif len(words) == 6 and words[3] in ("yes", "no"):
            yield "nothing" if words[:3] == ["-"] * 3 else "found"
            yield f"status {words[3]}"
            yield from (f"flag {it}" for it in words[5] if it != "-")
            if words[4] != "-":
                yield "left at a segment"
            yield from (f"{what} found" for what, it in zip(("type", "value", "macro"), words) if it != "-")
        elif line in ("true", "false", "none", "- - -"):
            yield line
        elif line.startswith("- ") and " :" in line:
            yield "line of a dump"


WANTED = (
    *("found", "nothing", "status yes", "status no", "flag d", "flag e", "left at a segment", "type found", "value found"),
    *("macro found", "true", "false", "none", "- - -", "line of a dump"),
    *(f"refused {it}" for _, it in ALWAYS_REFUSED + REFUSED_BUILDING + DANGLING),
)


def check(program, count):
    """Runs the generator's own checks; what failed."""
    failed, lines, answers = [], Counter(), Counter()
    for seed in range(count):
        script, refusal = script_of(seed)
        if script_of(seed) != (script, refusal):
            failed.append(f"seed {seed} gives two scripts")
        lines.update(it.split()[0] for it in script)
        run = subprocess.run([program], input="\n".join(script) + "\n", capture_output=True, text=True)
        answers.update(kinds_of_answer(run.stdout))
        last = run.stdout.splitlines()[-1:]
        told = f"refused {len(script)} {refusal}"
        if run.returncode != (1 if refusal else 0) or refusal and not (last and f"{last[0]} ".startswith(f"{told} ")):
            failed.append(f"seed {seed}: status {run.returncode}, {last}, where {told if refusal else 'no refusal'} was meant")
    failed += [f"no line `{it}`" for it in BUILDING + list(QUESTIONS) if not lines[it]]
    failed += [f"no answer of the kind `{it}`" for it in sorted(set(WANTED)) if not answers[it]]
    if 2 * answers["found"] < answers["found"] + answers["nothing"]:
        failed.append(f"{answers['found']} paths lead somewhere, and {answers['nothing']} nowhere")
    return failed


def main():
    words = argparse.ArgumentParser(usage="tools/differential/worlds.py SEED\n       tools/differential/worlds.py --check [--bin FOLDER] [--count N]")
    words.add_argument("seed", nargs="?")
    words.add_argument("--check", action="store_true")
    words.add_argument("--bin")
    words.add_argument("--count", type=int, default=300)
    words = words.parse_args()
    if not words.check:
        if words.seed is None:
            sys.exit("which seed?")
        print("\n".join(script_of(words.seed if not words.seed.isdigit() else int(words.seed))[0]))
        return
    tally = Tally()
    failed = check(built(words.bin, "defmap_tool", "defmap_tool"), words.count)
    for it in failed:
        tally.fail("worlds", it)
    tally.count(not failed)
    sys.exit(tally.end())


if __name__ == "__main__":
    main()
