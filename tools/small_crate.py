"""What `tools/wrong-bodies --check-itself` tries: the tool, on a small crate that is made for it."""
import os
import re
import shutil
import subprocess
import tempfile

from bodies import LET_THROUGH
from judging import ROOT, Tally, Wrong, read_text

NAME = "mutants_tried"
CODE = """\
#![tactic(auto)]

ghost use Rattle.mutants_tried.specs.Copied.{copied};
ghost use Rattle.std.specs.Prelude.{◌≡◌, ◌≤◌};

pub fn least(a: usize, b: usize) -> usize
    ensures by_a { result ≤ a }
    ensures by_b { result ≤ b }
{
    if a < b { a } else { b }
}

pub fn least_of_three(a: usize, b: usize, c: usize) -> usize
    ensures by_a { result ≤ a }
    ensures by_b { result ≤ b }
    ensures by_c { result ≤ c }
{
    let both = least(a, b);
    if both < c { both } else { c }
}

pub fn echo(x: usize) -> usize
    ensures { result ≡ copied x }
{
    x
}

pub fn again(y: usize) -> usize
    ensures { result ≡ copied y }
{
    y
}
"""
SPECS = """\
use Rattle.std.specs.Prelude.{ℕ}

unfoldable pub copied : ℕ → ℕ
copied x = x
"""
PROOF = """\
use Rattle.mutants_tried.proofs.FUNCTION.Goals as goal
use Rattle.mutants_tried.specs.Copied.{copied}
use Rattle.std.proofs.Common.{refl}

pub returns : goal.returns
unfolding copied
returns c = refl
"""
CRATE = f"crates/{NAME}"
LIB = f"{CRATE}/src/lib.rt"
COPIED = f"{CRATE}/specs/Copied.antt"
MUTANTS = f"{CRATE}/wrong-bodies"
PARTNERS = f"tools/harmless-bodies/{NAME}"
# It calls what another mutant turns, so that it is judged only when it is tried again without that.
HARMLESS = f"{MUTANTS}/least_of_three_in_another_order.edit"


def edit(old, new, more=""):
    return f"file: src/lib.rt\nold: {old}\nnew: {new}\n{more}"


FILES = {
    "crates.txt": f"{NAME}:\n",
    "HANDLES": "Handles allowed: none.\n",
    LIB: CODE,
    f"{CRATE}/specs/Lib.antt": "pub mod Copied\n",
    COPIED: SPECS,
    f"{CRATE}/proofs/echo/Answers.antt": PROOF.replace("FUNCTION", "echo"),
    f"{CRATE}/proofs/again/Answers.antt": PROOF.replace("FUNCTION", "again"),
    f"{MUTANTS}/least_takes_the_greater.edit": edit("if a < b", "if b < a"),
    f"{MUTANTS}/echo_gives_zero.edit": edit("    x", "    0"),
    f"{MUTANTS}/again_gives_zero.edit": edit("    y", "    0"),
    HARMLESS: edit("if both < c { both } else { c }", "if c < both { c } else { both }"),
    f"{PARTNERS}/least_takes_the_first_of_two_alike.edit": edit("if a < b", "if a <= b"),
    f"{PARTNERS}/again_names_it.edit": edit(
        "    y",
        "    { let same = y; same }",
        "file: proofs/again/Answers.antt\nold: returns c\nnew: returns found\n",
    ),
}


class Repository:
    """A repository in a folder of its own, with a copy of the tool. Its one crate is the layer."""

    def __init__(self, folder):
        self.folder = folder
        names = [it for it in os.listdir(f"{ROOT}/tools") if it.endswith(".py")]
        os.makedirs(f"{folder}/tools")
        for it in ("wrong-bodies", *names):
            shutil.copy2(f"{ROOT}/tools/{it}", f"{folder}/tools/{it}")
        for path, text in FILES.items():
            self.write(path, text)
        lock = "tools/mutants_lock.py"
        layer = f'LAYER = ("{NAME}",)'
        text, changes = re.subn(r"^LAYER = \(.*\)$", layer, self.read(lock), flags=re.M)
        self.write(lock, text)
        if changes != 1:
            raise Wrong(f"{lock} has no line LAYER")

    def read(self, path):
        return read_text(f"{self.folder}/{path}")

    def write(self, path, text):
        path = f"{self.folder}/{path}"
        os.makedirs(os.path.dirname(path), exist_ok=True)
        with open(path, "w", encoding="utf-8") as it:
            it.write(text)

    def run(self, *words, status, says):
        """Runs the tool there. It has to end with this status and to print each of these lines."""
        ran = subprocess.run(
            [f"{self.folder}/tools/wrong-bodies", *words],
            stdin=subprocess.DEVNULL,
            stdout=subprocess.PIPE,
            stderr=subprocess.PIPE,
            encoding="utf-8",
        )
        missing = [it for it in says if it not in ran.stdout.split("\n")]
        if missing or ran.returncode != status:
            said = f"status {ran.returncode}, without {missing}"
            raise Wrong(f"{said}:\n{ran.stdout}{ran.stderr}")
        return "as it has to"

    def locked(self):
        """What mutants.lock says of the crate."""
        path = "mutants.lock"
        lines = self.read(path).split("\n") if os.path.isfile(f"{self.folder}/{path}") else []
        return next((it.split(" ", 2)[2] for it in lines if it.startswith(f"{NAME} ")), "")


def judge_harmless(it):
    """One that turns nothing is let through, though another hid it at first. Nothing is locked."""
    it.run(
        "--jobs",
        "2",
        status=1,
        says=[
            f"{HARMLESS.removeprefix('crates/')}: {LET_THROUGH}",
            f"2 harmless mutants: 2 {LET_THROUGH}",
        ],
    )
    if it.locked():
        raise Wrong(f"it is locked: {it.locked()}")
    return "it is let through"


def judge_refused(it):
    """The others are refused, each in its way, and that is locked."""
    os.remove(f"{it.folder}/{HARMLESS}")
    it.run(NAME, status=0, says=[f"2 harmless mutants: 2 {LET_THROUGH}"])
    by_hand = "1 by a proof by hand that has a partner, 1 by a proof by hand alone"
    wanted = f"3 mutants: 1 by a search, {by_hand}"
    if it.locked() != wanted:
        raise Wrong(f"what is locked is '{it.locked()}', and not '{wanted}'")
    return it.locked()


def judge_layout(it):
    """Neither layout nor a comment makes it another text."""
    it.write(LIB, "// Four functions.\n" + CODE.replace("{ b }", "{\n        b\n    }"))
    it.write(COPIED, f"-- A copy.\n\n{SPECS}")
    return it.run("--apply", status=0, says=["1 passed, 0 failed"])


def judge_change(it, path, old, new):
    """A change of this file makes it another text."""
    before = it.read(path)
    it.write(path, before.replace(old, new))
    it.run("--apply", status=1, says=["0 passed, 1 failed"])
    it.write(path, before)
    return it.run("--apply", status=0, says=["1 passed, 0 failed"])


def check_tool():
    tally = Tally()
    with tempfile.TemporaryDirectory(prefix="wrong-bodies-") as folder:
        it = Repository(folder)
        tally.judge("a harmless change among mutants", lambda: judge_harmless(it))
        tally.judge("mutants", lambda: judge_refused(it))
        tally.judge("another layout", lambda: judge_layout(it))
        partner = f"{PARTNERS}/again_names_it.edit"
        changes = (LIB, "a < b", "b > a"), (COPIED, "x = x", "y = y"), (partner, "same", "it")
        for change in changes:
            tally.judge(f"a change of {change[0]}", lambda: judge_change(it, *change))
    return tally.end()
