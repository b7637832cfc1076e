"""mutants.lock: the text of each crate on which every one of its mutants was refused.

A text is known by a checksum of the crate's src/, specs/ and proofs/, of its mutants and of their
harmless partners. Layout and comments that are lines of their own do not count: what is proved of a
text, and refused of it, does not rest on them.
"""
import contextlib
import fcntl
import hashlib
import os
import re
from collections import Counter

from judging import ROOT, read_text

LOCK = f"{ROOT}/mutants.lock"
CODE = ("src", "specs", "proofs")

# The crates of the layer itself: what lands of these has all its mutants refused, on that text.
LAYER = ("dm_base", "dm_scope", "dm_def_map", "dm_maps", "hir_def_map", "dm_retry")

TOOL = "tools/wrong-bodies"
TOOL_FILES = (
    "wrong-bodies",
    "bodies.py",
    "judging.py",
    "mutants_lock.py",
    "rooms.py",
    "small_crate.py",
)

HEAD = """\
# On which text of each crate all its mutants were refused: tools/wrong-bodies writes this, and
# tools/wrong-bodies --apply fails where a crate of the layer is another text now. A line is a crate,
# the checksum of its src/, specs/, proofs/, mutants and harmless partners, layout and comments aside,
# and how many mutants were refused in which way. It is written when each mutant of the crate was
# tried, and refused. The line of the tool itself is of the text on which --check-itself passed.
# Empty lines stand between, so that two branches which change a line each can be merged.
"""
LINE = re.compile(r"^(\S+) (sha256:[0-9a-f]{64}) (.*)$", re.M)

# What of a .rt file is kept as it is (strings and characters), and what counts as one space
# (layout, comments in lines of their own).
RUST_TEXT = re.compile(
    r'(?P<kept>\br(?P<hashes>\#*)".*?"(?P=hashes)|"(?:\\.|[^"\\])*"|\'(?:\\.[^\']*|[^\'\\])\')'
    r"|\A//[^\n]*|(?:\s*\n[ \t]*//[^\n]*)+\s*|\s+",
    re.S,
)
ANTT_COMMENT = re.compile(r"^ *--(?: .*)?$")


def plain_rust(text):
    """The text without layout, and without comments that are lines of their own."""
    return RUST_TEXT.sub(lambda it: it["kept"] or " ", text).strip()


def plain_antt(text):
    """The text without empty lines, comments that are lines of their own, and spaces that end a
    line. Indentation stays: it has a meaning."""
    lines = (it.rstrip() for it in text.split("\n"))
    return "\n".join(it for it in lines if it and not ANTT_COMMENT.match(it))


def plain_edit(text):
    """The lines of a mutant, without the spaces that lay out the code in them."""
    lines = (" ".join(it.split()) for it in text.split("\n"))
    return "\n".join(it for it in lines if it)


PLAIN = {".rt": plain_rust, ".antt": plain_antt, ".edit": plain_edit}


def texts_of(root, folder):
    """The files of a folder that count, each by its path below the root, in order."""
    for top, folders, names in os.walk(f"{root}/{folder}"):
        folders.sort()
        for name in sorted(names):
            plain = PLAIN.get(os.path.splitext(name)[1])
            if plain:
                path = f"{top}/{name}"
                yield os.path.relpath(path, root), plain(read_text(path))


def sum_of(texts):
    found = hashlib.sha256()
    for path, text in sorted(texts):
        for it in (path.encode(), text.encode()):
            found.update(b"%d %s\n" % (len(it), it))
    return f"sha256:{found.hexdigest()}"


def code_sum(crate, root=None):
    """The checksum of a crate's code, definitions and proofs, here or in a copy of the repository."""
    root = root or ROOT
    return sum_of(it for part in CODE for it in texts_of(root, f"crates/{crate}/{part}"))


def crate_sum(crate):
    """The checksum of all on which it depends whether the crate's mutants are refused."""
    parts = [f"crates/{crate}/{part}" for part in (*CODE, "must-fail", "wrong-bodies")]
    parts.append(f"tools/harmless-bodies/{crate}")
    return sum_of(it for part in parts for it in texts_of(ROOT, part))


def tool_sum():
    """The checksum of the tool itself, as it is to the letter."""
    folder = f"{ROOT}/tools"
    return sum_of((it, read_text(f"{folder}/{it}")) for it in TOOL_FILES)


def entries():
    """What the lock says: by name, the checksum and what is told of it."""
    text = read_text(LOCK) if os.path.isfile(LOCK) else ""
    return {it[1]: (it[2], it[3]) for it in LINE.finditer(text)}


def is_as_locked(name, present):
    return entries().get(name, ("", ""))[0] == present


@contextlib.contextmanager
def changing():
    """Gives the entries to be changed, and writes them, whole or not at all. Another process that
    writes them waits."""
    folder = os.open(ROOT, os.O_RDONLY)
    try:
        fcntl.flock(folder, fcntl.LOCK_EX)
        before = entries()
        its = dict(before)
        yield its
        if its != before:
            lines = [f"{name} {total} {told}\n" for name, (total, told) in sorted(its.items())]
            with open(f"{LOCK}.new", "w", encoding="utf-8") as it:
                it.write("\n".join([HEAD, *lines]))
            os.replace(it.name, LOCK)
    finally:
        os.close(folder)


def note(name, total, told):
    """Writes that a text passed."""
    with changing() as its:
        its[name] = (total, told)


def strike(name):
    """Removes what the lock says of a name."""
    with changing() as its:
        its.pop(name, None)


def told_of(bodies, kinds):
    """How many mutants were refused in which way, each by a word for the way."""
    counts = Counter(it.verdict for it in bodies if not it.is_harmless)
    ways = (f"{counts[verdict]} {word}" for verdict, word in kinds.items() if counts[verdict])
    return f"{sum(counts.values())} mutants: {', '.join(ways)}"
