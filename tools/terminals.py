"""Runs the program `defmap` on terminals, for tools/defmap-faults."""
import os
import pty
import re
import subprocess
import threading
import time
import tty

from faults import write
from judging import Wrong

SECONDS = 60
COLOUR = re.compile(rb"\x1b\[[0-9;]*m")
TEXT = {"lib.rs": "pub mod a { pub struct S; make! { } }\nuse a::g;\nuse crate::none;\nmod gone;\nfn f( {}\n"}
TREE = ["tree", "lib.rs"]


def read_all(end, pieces):
    """Reads a terminal until nobody writes to it."""
    while True:
        try:
            piece = os.read(end, 65536)
        except OSError:
            return
        if not piece:
            return
        pieces.append(piece)


class Terminal:
    """A terminal that the program writes to, and what was written."""

    def __init__(self):
        self.end, self.written = pty.openpty()
        tty.setraw(self.written)
        self.pieces = []
        self.reader = threading.Thread(target=read_all, args=(self.end, self.pieces))
        self.reader.start()

    def text(self):
        os.close(self.written)
        self.reader.join(SECONDS)
        os.close(self.end)
        return b"".join(self.pieces)


def environment(more):
    """What the program is run in: no variable of colours but these."""
    kept = {name: value for name, value in os.environ.items() if name not in ("NO_COLOR", "TERM")}
    return {**kept, "TERM": "xterm", **more}


def run_on_terminals(program, words, folder, **variables):
    """The output and what is told, where both go to terminals, and the status."""
    out, told = Terminal(), Terminal()
    where = {"stdin": subprocess.DEVNULL, "stdout": out.written, "stderr": told.written}
    ran = subprocess.run([program, *words], cwd=folder, env=environment(variables), timeout=SECONDS, check=False, **where)
    return out.text(), told.text(), ran.returncode


def run_plain(program, words, folder, **variables):
    """The same, where they go to pipes."""
    ran = subprocess.run([program, *words], cwd=folder, env=environment(variables), capture_output=True, timeout=SECONDS, check=False)
    return ran.stdout, ran.stderr, ran.returncode


def want(is_so, what, seen):
    if not is_so:
        raise Wrong(f"{what}: {seen!r}"[:800])


def judge_colours(program, folder):
    """A tree on a terminal is the plain one, with colours."""
    write(folder, TEXT)
    plain, shown = run_plain(program, TREE, folder), run_on_terminals(program, TREE, folder)
    bare = tuple(COLOUR.sub(b"", it) for it in shown[:2])
    want(not any(b"\x1b" in it for it in plain[:2]), "colours in a pipe", plain)
    want((*bare, shown[2]) == plain, "not the plain tree", (plain, shown))
    words = [b"\x1b[34mstruct\x1b[0m \x1b[1mS\x1b[0m: \x1b[32mpub\x1b[0m, lib.rs:1:13\n", b".. \x1b[33munknown\x1b[0m, by 1 macro call",
             b"\x1b[33munknown\x1b[0m \x1b[1mg\x1b[0m\n", b"\x1b[1;31munresolved\x1b[0m"]
    for word in words:
        want(word in shown[0], f"no {word!r}", shown)
    want(b"\x1b[33mincomplete\x1b[0m: " in shown[1], "no colour of incomplete", shown)
    want(b"\x1b[1;31msyntax error\x1b[0m: " in shown[1], "no colour of a syntax error", shown)
    return f"{len(words)} colours"


def judge_plain(program, folder):
    """No colours where none are asked for, in JSON, and in other answers."""
    write(folder, TEXT)
    runs = [
        run_on_terminals(program, TREE, folder, NO_COLOR="1"), run_on_terminals(program, TREE, folder, TERM="dumb"),
        run_on_terminals(program, [*TREE, "--color", "never"], folder), run_plain(program, [*TREE, "--color", "auto"], folder),
    ]
    for ran in runs:
        want(not any(b"\x1b" in it for it in ran[:2]), "colours", ran)
    for words in ([*TREE, "--json"], ["imports", "lib.rs"], [*TREE, "--dot"], [*TREE, "--dump"]):
        ran = run_on_terminals(program, words, folder)
        want(b"\x1b" not in ran[0], "colours", ran)
    return f"{len(runs) + 4} runs"


def judge_always(program, folder):
    """Colours in a pipe, where they are asked for, also beside NO_COLOR."""
    write(folder, TEXT)
    shown = run_on_terminals(program, TREE, folder)
    ran = run_plain(program, [*TREE, "--color", "always"], folder, NO_COLOR="1")
    want(ran == shown, "not as on a terminal", (ran, shown))
    ran = run_plain(program, [*TREE, "--color", "x"], folder)
    want(ran == (b"", b"defmap: no --color x: give auto, always or never\n", 2), "no error", ran)
    return "2 runs"


def judge_failures(program, folder):
    """Why there is no answer has colours on a terminal alone."""
    write(folder, TEXT)
    cases = [(["tree", "none.rs"], 3, b"\x1b[1;31mdefmap\x1b[0m: none.rs: no such file"), (["trees"], 2, b"\x1b[1;31merror\x1b[0m: ")]
    for words, status, told in cases:
        ran = run_on_terminals(program, words, folder)
        want(ran[1].startswith(told) and ran[2] == status, f"no {told!r}", ran)
        plain = run_plain(program, words, folder)
        want(plain[1] == COLOUR.sub(b"", ran[1]), "not the plain line", (plain, ran))
    return f"{len(cases)} runs"


def feed(path, seconds):
    """Opens a pipe that the program reads, and writes nothing for some seconds."""
    with open(path, "wb"):
        time.sleep(seconds)


def run_slowly(run, program, folder):
    """Runs the program, where a file takes three seconds to be read."""
    feeder = threading.Thread(target=feed, args=(os.path.join(folder, "slow.rs"), 3))
    feeder.start()
    ran = run(program, TREE, folder)
    feeder.join(SECONDS)
    return ran


def judge_long(program, folder):
    """Long work tells what is read, on a terminal alone, and takes it away again."""
    write(folder, {"lib.rs": "mod slow;\nmod next;", "next.rs": ""})
    os.mkfifo(os.path.join(folder, "slow.rs"))
    plain, shown = (run_slowly(run, program, folder) for run in (run_plain, run_on_terminals))
    want(plain[1] == b"", "told in a pipe", plain)
    want(b"\r\x1b[Kreading slow/mod.rs" in shown[1] and shown[1].endswith(b"\r\x1b[K"), "nothing told", shown)
    want(COLOUR.sub(b"", shown[0]) == plain[0], "another answer", (plain, shown))
    return "told"


CASES = [("a tree on a terminal", judge_colours), ("no colours", judge_plain), ("colours in a pipe", judge_always),
         ("failures on a terminal", judge_failures), ("long work on a terminal", judge_long)]
