"""What the programs that judge and count have in common: tools/wrong-bodies, tools/refusals, tools/hostile and tools/cited."""
import argparse
import os
import subprocess

ROOT = os.path.dirname(os.path.dirname(os.path.abspath(__file__)))


class Wrong(Exception):
    """What is not as it should be."""


def read_text(path):
    with open(path, encoding="utf-8") as it:
        return it.read()


def built(folder, crate, name):
    """A program that `rt ci` built, or the one of that name in a folder."""
    path = f"{folder or f'{ROOT}/crates/{crate}/out'}/{name}"
    if not os.path.isfile(path):
        raise Wrong(f"there is no {path}: rt ci builds it")
    return path


def program_words(page, *more):
    """The words that a program takes which runs what was built; `page` is what it says of itself. More options take a word
    each, or none where they are shown without one."""
    words = argparse.ArgumentParser(description=page, formatter_class=argparse.RawDescriptionHelpFormatter)
    words.add_argument("--bin", default="", metavar="FOLDER", help="where the programs are, if not in the crates")
    words.add_argument("--only", default="", metavar="WORD", help="judge only what has the word in its title")
    for name, shown, told in more:
        how = {"default": "", "metavar": shown} if shown else {"action": "store_true"}
        words.add_argument(name, help=told, **how)
    return words.parse_args()


class Tally:
    """What passed and what failed."""

    def __init__(self, only=""):
        self.only, self.passed, self.failed = only, 0, 0

    def judge(self, title, judged):
        """Counts what a call judges: it gives what is told of it, or raises what is wrong."""
        if self.only not in title:
            return
        try:
            told = judged()
        except (Wrong, subprocess.SubprocessError, OSError) as it:
            self.fail(title, it)
            return
        self.count(True)
        self.tell(f"{title}: {told}")

    def fail(self, title, why):
        self.count(False)
        self.tell(f"{title}: FAILED: {why}")

    def count(self, has_passed):
        self.passed, self.failed = self.passed + has_passed, self.failed + (not has_passed)

    def tell(self, line):
        print(line, flush=True)

    def end(self):
        """Prints the last line, which ./test adds up, and gives the status to end with: 1 also where nothing was judged."""
        print(f"{self.passed} passed, {self.failed} failed")
        return int(self.failed != 0 or self.passed == 0)
