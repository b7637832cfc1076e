"""Mutants ("wrong bodies"), and harmless (equivalent) ones: how they are read, and which functions they change."""
import difflib
import os
import re
from dataclasses import dataclass, field

from judging import ROOT, read_text

REFUSED = "refused, as a search finds no proof"
PARTNERED = "refused by a proof by hand that is repaired for a harmless partner"
BY_HAND = "refused only where a proof by hand no longer fits"
LET_THROUGH = "let through"
UNAPPLIED = "cannot be applied"
NAMES_ONLY = "refused only where a proof names what the mutant removed"
UNJUDGED = "could not be judged"
IS_REFUSED = (REFUSED, PARTNERED, BY_HAND)

FUNCTION = re.compile(r"^( *)(?:pub(?:\([^)]*\))? )?(?:final )?(?:const )?(?:unsafe )?fn (\w+)")
BLOCK = re.compile(r"^(?:pub(?:\([^)]*\))? )?(impl|trait)\b(.*)")


class Unappliable(Exception):
    """An edit that cannot be applied, and why."""


@dataclass
class Body:
    """A mutant: which lines it replaces by what, and which functions it changes."""

    crate: str
    name: str
    is_harmless: bool = False
    hunks: dict = field(default_factory=dict)  # path: [(first line, line behind the last, lines)]
    functions: set = field(default_factory=set)  # (module, impl or trait, function); none: a constant
    verdict: str = ""
    why: str = ""

    def meets(self, other):
        """Whether both change one function, or the same or neighbouring lines; a constant may belong to any function."""
        if self.functions & other.functions or not self.functions or not other.functions:
            return True
        return any(
            a < d and c < b or a == c or b == c or d == a
            for path in self.hunks.keys() & other.hunks.keys()
            for a, b, _ in self.hunks[path]
            for c, d, _ in other.hunks[path]
        )


def edited(folder, edit, parts):
    """The texts of an edit's files after it, by path."""
    path, old, is_each, texts = "", "", False, {}
    for line in edit.split("\n"):
        if line.startswith("file: "):
            path = line[len("file: ") :].strip()
            if path.split("/")[0] not in parts:
                raise Unappliable(f"it stands in none of {', '.join(parts)}")
            if path not in texts:
                if not os.path.isfile(f"{folder}/{path}"):
                    raise Unappliable(f"there is no file {path}")
                texts[path] = read_text(f"{folder}/{path}")
        elif line.startswith("old: ") or line.startswith("each: ") and path.startswith("proofs/"):
            is_each, old = line.startswith("each"), line.split(": ", 1)[1]
        elif line.startswith("new:"):
            if not path or not old:
                raise Unappliable("a line 'new:' stands before any 'file:' or 'old:'")
            found = texts[path].count(old)
            if found != 1 and not (is_each and found):
                raise Unappliable(f"an 'old:' text stands in {path} {found} times, and not once")
            texts[path] = texts[path].replace(old, line[len("new:") :].removeprefix(" "))
            old = ""
    if not texts:
        raise Unappliable("it has no pair of 'old:' and 'new:'")
    return texts


def changed_lines(before, after):
    """The runs of lines that differ, each with what replaces it."""
    matcher = difflib.SequenceMatcher(None, before, after, autojunk=False)
    return [(i, j, after[k:l]) for tag, i, j, k, l in matcher.get_opcodes() if tag != "equal"]


def words_of(text, parameters):
    """The names of a type or trait in order, run together, without parameters and lifetimes."""
    text = re.sub(r"\(([^()]*)\)", lambda it: f"Tuple{it[1].count(',') + 1} {it[1]}", re.sub(r"'\w+", "", text).replace("&", " Ref "))
    names = [it.split("::")[-1] for it in re.findall(r"[A-Za-z_][\w:]*", text)]
    names = [it for it in names if it not in parameters and it not in ("mut", "dyn", "const")]
    return "".join(it[0].upper() + it[1:] for it in names)


def block_name(head, text):
    """The name by which the prover calls an impl or a trait that begins with this text."""
    if head == "trait":
        return re.match(r"\s*(\w+)", text)[1]
    text = text.split("{")[0].split(" where ")[0].strip()
    parameters = set()
    if text.startswith("<"):
        depth, end = 0, 0
        for end, it in enumerate(text):
            depth += (it == "<") - (it == ">" and text[end - 1] != "-")
            if not depth:
                break
        parameters = set(re.findall(r"(?:^|,)\s*(?:const )?(\w+)", text[1:end]))
        text = text[end + 1 :].strip()
    trait, has_trait, kind = text.partition(" for ")
    if not has_trait:
        return words_of(re.sub(r"<.*", "", text), parameters)
    return words_of(kind, parameters) + words_of(trait, parameters)


def function_at(path, lines, at):
    """The function whose body contains the line; none for a constant."""
    module = re.sub(r"^src/|\.rt$", "", path).replace("/", "::").removesuffix("::mod")
    module = "" if module in ("lib", "main") else module
    for i in range(min(at, len(lines) - 1), -1, -1):
        found = FUNCTION.match(lines[i])
        if not found or len(found[1]) > len(lines[at]) - len(lines[at].lstrip()) and lines[at].strip():
            continue
        if not found[1]:
            return module, "", found[2]
        for j in range(i, -1, -1):
            block = BLOCK.match(lines[j])
            if block:
                head = " ".join(it.strip() for it in [block[2], *lines[j + 1 : j + 4]])
                # items of an inherent impl are named by their type alone, whatever the module of the impl
                is_of_type = block[1] == "impl" and " for " not in head.split("{")[0]
                return "" if is_of_type else module, block_name(block[1], head), found[2]
    return None


def read_body(crate, path, is_harmless=False):
    folder = f"{ROOT}/crates/{crate}"
    body = Body(crate, os.path.relpath(path, ROOT).removeprefix("crates/"), is_harmless)
    try:
        for file, after in edited(folder, read_text(path), ("src", "proofs") if is_harmless else ("src",)).items():
            before = read_text(f"{folder}/{file}").split("\n")
            body.hunks[file] = changed_lines(before, after.split("\n"))
            if file.startswith("src/"):
                body.functions.update(function_at(file, before, first) for first, _, _ in body.hunks[file])
        body.functions.discard(None)
        if not any(body.hunks.values()):
            raise Unappliable("it changes nothing")
    except (Unappliable, OSError, UnicodeDecodeError) as why:
        body.verdict, body.why = UNAPPLIED, str(why)
    return body


def files_of(folder):
    return [f"{folder}/{it}" for it in sorted(os.listdir(folder)) if it.endswith(".edit")] if os.path.isdir(folder) else []


def folders_of(crate):
    return [f"{ROOT}/crates/{crate}/{part}" for part in ("must-fail", "wrong-bodies")]


def has_bodies(crate):
    return any(map(files_of, folders_of(crate)))


def bodies_of(crate):
    """The mutants of a crate."""
    return [read_body(crate, path) for folder in folders_of(crate) for path in files_of(folder)]


def partners_of(crate):
    """The harmless (equivalent) mutants of a crate."""
    return [read_body(crate, path, True) for path in files_of(f"{ROOT}/tools/harmless-bodies/{crate}")]


def in_batches(bodies):
    """The mutants in lists in which no two meet."""
    batches = []
    for body in bodies:
        for batch in batches:
            if not any(body.meets(it) for it in batch):
                batch.append(body)
                break
        else:
            batches.append([body])
    return batches
