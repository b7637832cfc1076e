"""Names of whole modules, asked by a probe: in a copy of a crate a module stands in each module that is asked about, which
imports every name that the outer one could bind. rustc tells what each import means, and so does `defmap`.
"""
import re
from dataclasses import dataclass, field

from cargo_builds import read_text, write

PROBE = "__defmap_probe"
MODULES = 8
# Of more names than this only so many are asked of a module, at even distances.
NAMES = 400
WORD = re.compile(r"\b[A-Za-z_]\w*")
SPACES = {"mod": "type", "struct": "type", "union": "type", "enum": "type", "variant": "type", "trait": "type",
          "type": "type", "builtin type": "type", "fn": "value", "const": "value", "static": "value",
          "constructor": "value", "macro": "macro", "unresolved": "", "unknown": ""}
TOLD = re.compile(rf"((?:  )+)({'|'.join(SPACES)}) (\S+?)(?:: (.*))?")
BROUGHT = re.compile(r", (?:import|glob|extern)\b")
TEST = re.compile(r"#\[(?:test|bench|test_case)\b[^;{}]*?\bfn (\w+)")
# A `use` or an `extern` block with an attribute that the language has not itself.
REWRITTEN = re.compile(r"#\[(?!cfg|doc|allow|warn|deny|expect|macro_use|stable|unstable|deprecated|rustc_|prelude_import|link)"
                       r"[^\]]*\]\s*(?:(?:pub\b(?:\([^)]*\))?\s*)?use\b|(?:unsafe\s+)?extern\s*(?:\"[^\"]*\"\s*)?\{)")
KEYWORDS = set("""abstract as async await become box break const continue do dyn else enum extern false final fn for if impl in
    let loop macro match mod move mut override priv pub ref return static struct trait true try type typeof unsafe unsized
    use virtual where while yield""".split())
NOT_ASKED = {"_", "self", "super", "crate", "Self", "", PROBE}


@dataclass
class Probe:
    """A module that is asked about, and its names, by the places of the imports that ask for them."""

    module: str
    names: list
    file: str = ""
    row: int = 0
    columns: dict = field(default_factory=dict)


def trees(printed):
    """The modules that `defmap tree` prints, each with its names, and of each name the namespaces in which it is bound; what
    it prints of enums, and of the roots of other crates, is left out."""
    modules, around = {"crate": {}}, ["crate"]
    for line in printed.splitlines():
        told = TOLD.fullmatch(line)
        if not told or told[3] == "_":
            continue
        depth, kind, name, seen = len(told[1]) // 2, told[2], told[3], told[4] or ""
        home = around[depth - 1] if depth <= len(around) else None
        if not home:
            continue
        spaces = modules[home].setdefault(name, set())
        if SPACES[kind]:
            spaces.add(SPACES[kind])
        own = f"{home}::{name}"
        if kind == "mod" and is_declared(seen):
            around[depth:] = [own]
            modules.setdefault(own, {})
        elif around[depth:depth + 1] != [own]:
            around[depth:] = [None]
    return modules


def is_declared(seen):
    """Whether what stands behind a name says that the crate declares it: then it is followed by its place."""
    return ", " in seen and not BROUGHT.search(seen)


def candidates(said, own, module, bound):
    """The names that a module could bind: those that `defmap` binds, and those that rustc could."""
    names = set(bound) | names_of(said, own, module)
    if module == "crate":
        names |= said.macros
    asked = sorted(names - NOT_ASKED)
    return asked[:: -(-len(asked) // NAMES) or 1]


def sources_of(said, own, module, seen):
    """A module or an enum of a crate, and all that its globs bring names of, by rustc."""
    if module not in seen:
        seen.add(module)
        for meant in said.globs.get(module, ()):
            inner = f"crate{meant.path[len(own):]}" if meant and meant.path.split("::")[0] == own else None
            if inner in said.declared:
                sources_of(said, own, inner, seen)
    return seen


def has_foreign(said, own, module):
    return any(not it or it.path.split("::")[0] != own for it in said.globs.get(module, ()))


def names_of(said, own, module):
    """The names that a module could bind by rustc: of its items, and of all that its globs bring. What rustc has of other
    crates it does not list: of those all words count of the file that the module with the glob stands in."""
    names = set()
    for it in sources_of(said, own, module, set()):
        names |= said.declared[it]
        if it in said.modules and has_foreign(said, own, it):
            names |= set(WORD.findall(read_text(said.modules[it].file)))
    return names


def behind_globs(said, own, tree, wanted):
    """The probes of names that a glob would bring of an import that leads nowhere: `tree` tells these of its module."""
    found = set()
    for where, (module, name) in wanted.items():
        others = sources_of(said, own, module, set()) - {module}
        if any(tree.get(it, {}).get(name, {module}) == set() for it in others):
            found.add(where)
    return found


def chosen(said, tree):
    """The modules that are asked about: the root, then those that have globs, then those with the most names."""
    own = [it for it in said.modules if it in tree and is_probed(said, it)]
    order = {it: (it != "crate", it not in said.globs, -len(tree[it]), it) for it in own}
    by_line = {}
    for it in sorted(own, key=order.get):
        by_line.setdefault((said.modules[it].file, said.modules[it].row), it)
    return list(by_line.values())[:MODULES]


def is_inline(said, module):
    """Whether a module stands between braces in the file of the module around it."""
    outer = said.modules.get(module.rpartition("::")[0])
    return outer is not None and outer.file == said.modules[module].file


def is_probed(said, module):
    """Whether a probe can stand in a module: its file is that of no other, but for those within it."""
    place = said.modules[module]
    if is_inline(said, module):
        return is_probed(said, module.rpartition("::")[0])
    sharing = [it for it, other in said.modules.items() if other.file == place.file and not is_inline(said, it)]
    return sharing == [module]


def probe_text(probe, column):
    """The module that asks for the names of another. It stands in one line, from a column on."""
    text, probe.columns = f" mod {PROBE} {{ use super::{{", {}
    for number, name in enumerate(probe.names):
        probe.columns[column + len(text)] = name
        text += f"{'r#' if name in KEYWORDS else ''}{name} as _{number}, "
    return f"{text}}}; }} "


def insert(said, probes, moved):
    """Writes probes into the files of a copy, each in a line of its own; `moved` gives the path of a file there."""
    for probe in probes:
        place = said.modules[probe.module]
        file = moved(place.file)
        lines = read_text(file).split("\n")
        line = lines[place.row - 1]
        at = place.column - 1 - is_inline(said, probe.module)
        probe.file, probe.row = file, place.row
        lines[place.row - 1] = line[:at] + probe_text(probe, at + 1) + line[at:]
        write(file, "\n".join(lines))


def asked_by(probes):
    """The module and the name that each import of some probes asks for, by its file, row and column."""
    asked = {}
    for probe in probes:
        for column, name in probe.columns.items():
            asked[probe.file, probe.row, column] = (probe.module, name)
    return asked


def probes_of(said, own, tree):
    """What is asked of a crate."""
    found = [Probe(it, candidates(said, own, it, tree[it])) for it in chosen(said, tree)]
    return [it for it in found if it.names]


def tests_of(said, own):
    """The paths that the functions of a crate may have which attributes as `#[test]` take away."""
    by_file = {file: TEST.findall(read_text(file)) for file in {it.file for it in said.modules.values()}}
    return {f"{own}{module[len('crate'):]}::{name}"
            for module, place in said.modules.items() for name in by_file[place.file]}


def modules_with(said, pattern):
    """The modules in whose files a pattern stands."""
    return {module for module, place in said.modules.items() if pattern.search(read_text(place.file))}
