"""A room, in which one crate is checked with some of its mutants applied, and what a check says."""
import os
import re
import shutil
import subprocess

from bodies import BY_HAND, LET_THROUGH, NAMES_ONLY, REFUSED, UNJUDGED
from judging import ROOT, read_text

PARTS = ("src", "specs", "proofs")
BY_HAND_FILES = ("Answers.antt", "Proof.antt")

VERDICT = re.compile(r"^fn (\S+): (proved|not proved|no proof|could not tell)(?:[:;,] (.*))?$")
DERIVED = re.compile(r"^(it calls|it passes|it uses|it waits|the borrow checker's part in its proof is not made yet: a call of)\b")
AT_SOURCE = re.compile(r"^note: (?:\./)?src/\S+:\d+:\d+: ")
PROOF_ERROR = re.compile(r"^(?:\./)?proofs/(.+)/[^/]+\.antt:\d+:\d+: error: (.*)")
MISSING_NAME = re.compile(r"has no field|is not in scope|has no `|was not admitted")
FRONT_END = re.compile(r"error", re.IGNORECASE)
GOAL = re.compile(r"\(`([^`]+)`\)|`search` did not prove `([^`]+)`")
ANSWERED = re.compile(r"^pub (\S+) : goal\.", re.M)
CLOSURE = "::fn::"


def clause_of(goal):
    """The name of a goal without the path through the body that it belongs to."""
    return re.sub(r"^returns-.*?(?=clause-|$)", "returns-", goal)


def linked(source, copy):
    """Copies a cached proof: by a hard link where possible, since a check replaces such a file and never changes it."""
    try:
        return os.link(source, copy)
    except OSError:
        return shutil.copy2(source, copy)


def crates_below(crate):
    """The crates of the repository that a crate uses, those that they use among them."""
    lines = (it.split("#")[0].partition(":") for it in read_text(f"{ROOT}/crates.txt").split("\n"))
    uses = {name.split()[0]: its.split() for name, colon, its in lines if colon}
    found, left = set(), [crate]
    while left:
        more = [it for it in uses.get(left.pop(), []) if it in uses and it not in found]
        found.update(more)
        left += more
    return sorted(found)


class Room:
    """A copy of the repository, in which one crate is checked with some of its mutants applied.

    The sources are those of ROOT; what was proved of them, and the libraries below, is linked from the folder `kept`.
    """

    def __init__(self, folder, crate, processors, kept=ROOT):
        self.folder, self.crate, self.processors = folder, crate, processors
        for name in ("crates.txt", "HANDLES"):
            shutil.copy2(f"{ROOT}/{name}", f"{folder}/{name}")
        for it in os.listdir(f"{ROOT}/crates"):
            for part in PARTS:
                source = f"{ROOT}/crates/{it}/{part}"
                if os.path.isdir(source):
                    shutil.copytree(source, f"{folder}/crates/{it}/{part}", symlinks=True)
        for it in crates_below(crate):
            source = f"{kept}/crates/{it}/out/rlib"
            if os.path.isdir(source):
                copy = f"{folder}/crates/{it}/out/rlib"
                shutil.copytree(source, copy, symlinks=True, copy_function=linked)

        self.standing = None
        self.kept = f"{kept}/crates/{crate}/out/incremental"
        self.standing = self.check([])
        self.kept = f"{folder}/kept"
        if os.path.isdir(f"{folder}/crates/{crate}/out/incremental"):
            shutil.move(f"{folder}/crates/{crate}/out/incremental", self.kept)

    def restore(self, part, source, copied=shutil.copy2):
        """Puts back a part of the crate, if there is one."""
        copy = f"{self.folder}/crates/{self.crate}/{part}"
        shutil.rmtree(copy, ignore_errors=True)
        if os.path.isdir(source):
            shutil.copytree(source, copy, symlinks=True, copy_function=copied)

    def write(self, bodies, bare):
        """Restores the crate's current sources, applies these mutants, and removes the given proofs by hand.

        The cached proofs of the current sources are restored too: else what the last mutants changed would be proved again.
        """
        hunks = {}
        for body in bodies:
            for path, its in body.hunks.items():
                hunks.setdefault(path, []).extend(its)
        room = f"{self.folder}/crates/{self.crate}"
        for part in ("src", "proofs"):
            self.restore(part, f"{ROOT}/crates/{self.crate}/{part}")
        self.restore("out/incremental", self.kept, linked)
        for path, its in hunks.items():
            lines = read_text(f"{room}/{path}").split("\n")
            for first, last, new in sorted(its, key=lambda it: it[0], reverse=True):
                lines[first:last] = new
            with open(f"{room}/{path}", "w", encoding="utf-8") as it:
                it.write("\n".join(lines))
        for path in bare:
            os.remove(f"{room}/{path}")

    def check(self, bodies, bare=(), asked=()):
        """What the prover says of the crate with these mutants, and without these files.

        Where each mutant is of a function, or of those asked for, these functions alone are checked: a body turns no other
        one's proof, and a check of the whole crate would do the proofs of all their callers again.
        """
        self.write(bodies, bare)
        only = [word for it in self.names_of(asked or bodies) for word in ("--only", it)]
        ran = subprocess.run(
            ["rt", "check", "--jobs", str(self.processors), *only],
            cwd=f"{self.folder}/crates/{self.crate}",
            stdin=subprocess.DEVNULL,
            stdout=subprocess.PIPE,
            stderr=subprocess.STDOUT,
            errors="replace",
        )
        return Said(self.crate, ran.stdout.split("\n"))

    def names_of(self, bodies):
        """The functions that these mutants change, as a check is asked for them; none if it is for all."""
        if not self.standing or not all(it.functions for it in bodies):
            return []
        functions = {function for body in bodies for function in body.functions}
        names = {it for function in functions for it in self.standing.matching(self.crate, function)}
        return sorted(it.removeprefix(f"{self.crate}::") for it in names if CLOSURE not in it)


class Said:
    """What a check said of each function."""

    def __init__(self, crate, lines):
        self.crate, self.lines = crate, lines
        self.of_functions = {}  # name: (verdict, reasons, whether a goal of its own is told)
        self.proof_errors = {}  # folder of proofs: what was said
        told = []
        for line in lines:
            found = VERDICT.match(line)
            if found:
                self.of_functions[found[1]] = (found[2], found[3] or "", told)
                told = []
            elif AT_SOURCE.match(line):
                told.append(line)
            error = PROOF_ERROR.match(line)
            if error:
                self.proof_errors.setdefault(error[1], []).append(error[2])

    def is_judged(self):
        return bool(self.of_functions)

    def not_proved(self):
        """A function that is not proved, or what the front end says; none where all is proved."""
        return next((name for name, it in self.of_functions.items() if it[0] != "proved"), "" if self.is_judged() else self.first_fault())

    def first_fault(self):
        return next((it for it in self.lines if FRONT_END.search(it)), self.lines[-1] if self.lines else "")[:200]

    def by_hand(self, name):
        """The folder of a function's proofs, and what it has of answers by hand."""
        folder = f"proofs/{name.removeprefix(f'{self.crate}::').replace('::', '/')}"
        return [f"{folder}/{it}" for it in BY_HAND_FILES if os.path.isfile(f"{ROOT}/crates/{self.crate}/{folder}/{it}")]

    def open_goals(self, name):
        """The goals of a function that the search did not prove, without the path through the body."""
        _verdict, reasons, told = self.of_functions[name]
        found = GOAL.findall("\n".join([reasons, *told]))
        return {clause_of(it[0] or it[1]) for it in found}

    def answered(self, name):
        """The goals of a function that are proved by hand; none where its whole proof is by hand, which names no goals."""
        files = self.by_hand(name)
        texts = "\n".join(read_text(f"{ROOT}/crates/{self.crate}/{it}") for it in files)
        return {clause_of(it) for it in ANSWERED.findall(texts)}

    def matching(self, crate, function):
        """The names that the prover gives the function and its closures."""
        module, block, name = function
        path = f"{block}::{name}" if block else name
        if block and not module:
            return [it for it in self.of_functions if it.endswith(f"::{path}") or f"::fn::{path}::" in it]
        within = f"{crate}::{module}" if module else crate
        return [it for it in self.of_functions if it == f"{within}::{path}" or it.startswith(f"{within}::fn::{path}::")]

    def of(self, crate, name):
        """The verdict on one function, and why."""
        verdict, reasons, told = self.of_functions[name]
        if verdict == "proved":
            return LET_THROUGH, ""
        if verdict == "could not tell":
            return UNJUDGED, "the prover could not tell"
        own = [it for it in reasons.split("; ") if it and not DERIVED.match(it)]
        errors = self.proof_errors.get(name.removeprefix(f"{crate}::").replace("::", "/"), [])
        if verdict == "no proof" and not own and not told:
            return UNJUDGED, reasons
        if errors and not told and all(MISSING_NAME.search(it) for it in errors):
            return NAMES_ONLY, errors[0]
        if self.open_goals(name) - self.answered(name) or not errors and not self.by_hand(name):
            return REFUSED, [*told, *own, reasons][0]
        return BY_HAND, [*errors, *told, reasons][0]
