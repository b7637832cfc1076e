"""Crates of Debian's registry, built offline by the cargo and rustc of the path, and what `defmap` says of the same crates.

Each is built as the dependency of an empty package, with its default features; rustc prints what it says of it instead of
compiling it. Nothing of the registry is written to.
"""
import json
import os
import re
import shlex
import shutil
import subprocess
import tempfile
from dataclasses import dataclass, field

from judging import Wrong
from rustc_tree import read

REGISTRY = "/usr/share/cargo/registry"
SYSROOT = os.path.realpath("/usr/lib/rustlib/src/rust/library")
# Those of the version that Debian's sources of the standard library are of.
DEBIAN_RUSTC = "/usr/bin/rustc"
SECONDS = 1_800
PASS = re.compile(r"^time: +([\d.]+); rss: +\d+MB -> +(\d+)MB .*?\t(\w+)$", re.M)
PASSES = ("parse_crate", "macro_expand_crate", "finalize_imports")
RUNNING = re.compile(r"Running `(.*?)`\n", re.S)


def toolchain(name):
    """A program of the toolchain that the rustc of the path is of: what chooses one takes time."""
    root = subprocess.run(["rustc", "--print", "sysroot"], capture_output=True, text=True, check=True).stdout.strip()
    return f"{root}/bin/{name}"


CARGO, RUSTC = toolchain("cargo"), toolchain("rustc")


@dataclass
class Build:
    """A crate, and how rustc was run on it."""

    name: str
    folder: str  # where the crate's files are
    words: list  # of rustc
    env: dict
    tree: str  # the file that rustc printed to
    passes: dict  # the seconds of the passes of rustc, and after each the MB that it held
    options: list = field(default_factory=list)  # of defmap

    @property
    def root(self):
        return next(it for it in self.words[1:] if it.endswith(".rs"))


def run(words, **how):
    return subprocess.run(words, capture_output=True, text=True, timeout=SECONDS, check=False, **how)


def environment(target):
    env = {**os.environ, "RUSTC": RUSTC, "RUSTC_BOOTSTRAP": "1", "CARGO_TARGET_DIR": target}
    env.pop("RUSTUP_TOOLCHAIN", None)
    return env


def write(path, text):
    os.makedirs(os.path.dirname(path), exist_ok=True)
    with open(path, "w", encoding="utf-8") as it:
        it.write(text)


def read_text(path):
    with open(path, encoding="utf-8", errors="replace") as it:
        return it.read()


def package(folder, name, version):
    """An empty package that depends on a crate."""
    write(f"{folder}/src/lib.rs", "")
    write(f"{folder}/.cargo/config.toml",
          f'[source.crates-io]\nreplace-with = "debian"\n[source.debian]\ndirectory = "{REGISTRY}"\n')
    write(f"{folder}/Cargo.toml",
          f'[package]\nname = "probe"\nversion = "0.1.0"\nedition = "2018"\n[dependencies]\n{name} = "={version}"\n')


def run_words(told):
    """The words and the environment that cargo ran rustc with on the crate itself."""
    lines = [it for it in RUNNING.findall(told) if "-Zunpretty=hir-tree" in it]
    if not lines:
        return None, {}
    words = shlex.split(lines[-1])
    first = next(it for it, word in enumerate(words) if word == RUSTC)
    return words[first:], dict(it.split("=", 1) for it in words[:first])


def passes(told):
    """The seconds of rustc's passes, and the MB that it held after each."""
    return {name: (float(seconds), int(size)) for seconds, size, name in PASS.findall(told) if name in PASSES}


def built(folder, target, name, version):
    """A crate of the registry, built; what is wrong where it cannot be."""
    package(folder, name, version)
    data = run([CARGO, "metadata", "--format-version", "1", "--offline"], cwd=folder, env=environment(target))
    if data.returncode:
        return "its dependencies are not there"
    write(f"{folder}/metadata.json", data.stdout)
    tree = f"{folder}/tree"
    words = [CARGO, "rustc", "--offline", "-vv", "-p", name, "--lib", "--profile", "check", "--message-format", "json",
             "--", "-Zunpretty=hir-tree", "-Ztime-passes", "-o", tree]
    ran = run(words, cwd=folder, env=environment(target))
    write(f"{folder}/build.json", ran.stdout)
    words, env = run_words(ran.stderr)
    if ran.returncode or not words or not os.path.exists(tree):
        return "it does not build"
    home = f"{REGISTRY}/{name}-{version}"
    made = Build(words[words.index("--crate-name") + 1], home, words, env, tree, passes(ran.stderr))
    if not read_text(made.root).strip():
        return "its root is empty"
    made.options = ["--metadata", f"{folder}/metadata.json", "--build", f"{folder}/build.json", *compiled_with(words)]
    return made


def compiled_with(words):
    """The edition and the options that rustc's words name, as `defmap` takes them."""
    options = [f"--edition={it.split('=')[1]}" for it in words if it.startswith("--edition=")] or ["--edition=2015"]
    for number, word in enumerate(words):
        if word == "--cfg":
            options += ["--cfg", words[number + 1]]
    return options


def copied(build, folder):
    """The same crate in another folder, where its files may be changed."""
    home = f"{folder}/{os.path.basename(build.folder)}"
    shutil.copytree(build.folder, home, symlinks=True)
    words = [it.replace(build.folder, home) for it in build.words]
    env = {key: it.replace(build.folder, home) for key, it in build.env.items()}
    options = list(build.options)
    if "--metadata" in options:
        at = options.index("--metadata") + 1
        text = read_text(options[at]).replace(build.folder, home)
        write(f"{folder}/metadata.json", text)
        options[at] = f"{folder}/metadata.json"
    return Build(build.name, home, words, env, f"{folder}/tree", {}, options)


def printed_again(build, folder):
    """Where rustc prints what it says of a crate that was changed, in which it may find what is wrong."""
    words = list(build.words)
    words[words.index("-o") + 1] = build.tree
    if "--cap-lints" in words:
        words[words.index("--cap-lints") + 1] = "allow"
    run(words, cwd=folder, env={**os.environ, **build.env, "RUSTC_BOOTSTRAP": "1"})
    if not os.path.exists(build.tree):
        raise Wrong("rustc prints nothing of the crate with probes")
    return build.tree


def said_of(path, names=None):
    """What rustc says by the file that it printed to, which is removed; what it names is noted, too."""
    with open(path, encoding="utf-8", errors="replace") as it:
        said = read(names.watched(it) if names else it)
    os.remove(path)
    return said


@dataclass
class Answer:
    """What `defmap` said of a crate."""

    out: str
    told: str
    status: int
    seconds: float  # of a processor
    megabytes: int


def asked(program, build, command, *more):
    """What `defmap` says of a crate."""
    words = ["timeout", str(SECONDS), program, command, build.root, *build.options, *more]
    with tempfile.TemporaryFile("w+") as out, tempfile.TemporaryFile("w+") as told:
        child = subprocess.Popen(words, stdout=out, stderr=told)
        _, status, usage = os.wait4(child.pid, 0)
        child.returncode = os.waitstatus_to_exitcode(status)
        out.seek(0)
        told.seek(0)
        taken = usage.ru_utime + usage.ru_stime
        return Answer(out.read(), told.read(), child.returncode, taken, usage.ru_maxrss // 1024)


def procedural(folder):
    """The names of the crates of procedural macros among what a package needs."""
    data = json.loads(read_text(f"{folder}/metadata.json"))
    targets = [target for package in data["packages"] for target in package["targets"]]
    return {it["name"].replace("-", "_") for it in targets if "proc-macro" in it["kind"]}
