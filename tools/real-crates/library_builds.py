"""`core`, `alloc` and `std` of Debian's `rust-src`, by Debian's rustc, which is of the same version.

Cargo cannot build them offline: what it would tell of them is written here. The other crates that `std` uses are those of
the registry, which may be of a later version than those that rustc has.
"""
import glob
import json
import os
from dataclasses import dataclass, field

from cargo_builds import DEBIAN_RUSTC, REGISTRY, SYSROOT, Build, compiled_with, passes, run, write

LIBRARIES = ("core", "alloc", "std")
LINKED = ("addr2line", "cfg_if", "hashbrown", "libc", "miniz_oxide", "object", "panic_unwind", "rustc_demangle",
          "std_detect", "unwind")


@dataclass
class Package:
    """A crate, as cargo would know it."""

    root: str
    edition: str
    needs: tuple = ()
    features: tuple = ()
    options: tuple = field(default_factory=tuple)  # those that its build script sets


PACKAGES = {
    "core": Package(f"{SYSROOT}/core/src/lib.rs", "2021"),
    "alloc": Package(f"{SYSROOT}/alloc/src/lib.rs", "2021", ("core",)),
    "std": Package(f"{SYSROOT}/std/src/lib.rs", "2021", ("core", "alloc", *LINKED), (), ("backtrace_in_libstd",)),
    "addr2line": Package(f"{REGISTRY}/addr2line-0*/src/lib.rs", "2015", ("core", "alloc", "gimli"), ("rustc-dep-of-std",)),
    "adler": Package(f"{REGISTRY}/adler-1*/src/lib.rs", "2015", ("core",)),
    "cfg_if": Package(f"{REGISTRY}/cfg-if-1*/src/lib.rs", "2018", ("core",)),
    "gimli": Package(f"{REGISTRY}/gimli-0*/src/lib.rs", "2018", ("core", "alloc"), ("read", "rustc-dep-of-std")),
    "hashbrown": Package(f"{REGISTRY}/hashbrown-0.12*/src/lib.rs", "2021", ("core", "alloc"),
                         ("nightly", "rustc-internal-api", "rustc-dep-of-std")),
    "libc": Package(f"{REGISTRY}/libc-0.2*/src/lib.rs", "2015", ("core",), ("align", "rustc-dep-of-std"),
                    ("libc_priv_mod_use", "libc_union", "libc_const_size_of", "libc_align", "libc_int128", "libc_core_cvoid",
                     "libc_packedN", "libc_cfg_target_vendor", "libc_non_exhaustive", "libc_ptr_addr_of",
                     "libc_underscore_const_names", "libc_const_extern_fn")),
    "memchr": Package(f"{REGISTRY}/memchr-2*/src/lib.rs", "2018", ("core",)),
    "miniz_oxide": Package(f"{REGISTRY}/miniz_oxide-0*/src/lib.rs", "2018", ("core", "alloc", "adler")),
    "object": Package(f"{REGISTRY}/object-0*/src/lib.rs", "2018", ("core", "alloc", "memchr"),
                      ("read_core", "elf", "macho", "pe", "unaligned", "archive")),
    "panic_unwind": Package(f"{SYSROOT}/panic_unwind/src/lib.rs", "2021", ("core", "alloc", "cfg_if", "libc", "unwind")),
    "rustc_demangle": Package(f"{REGISTRY}/rustc-demangle-0.1*/src/lib.rs", "2015", ("core",), ("rustc-dep-of-std",)),
    "std_detect": Package(f"{SYSROOT}/stdarch/crates/std_detect/src/lib.rs", "2018", ("core", "alloc", "cfg_if", "libc"),
                          ("rustc-dep-of-std",)),
    "unwind": Package(f"{SYSROOT}/unwind/src/lib.rs", "2021", ("core", "cfg_if", "libc")),
}


def root_of(name):
    """The file of the root of a crate; none where it is not there."""
    return next(iter(sorted(glob.glob(PACKAGES[name].root))), None)


def below(name):
    """A crate and all that it needs."""
    found = {name}
    for it in PACKAGES[name].needs:
        found |= below(it)
    return {it for it in found if root_of(it)}


def metadata(name):
    """What `cargo metadata` would print of a crate and what it needs."""
    packages, nodes = [], []
    for it in sorted(below(name)):
        package = PACKAGES[it]
        target = {"kind": ["lib"], "name": it, "src_path": root_of(it), "edition": package.edition}
        packages.append({"id": it, "name": it, "targets": [target]})
        needs = [{"name": need, "pkg": need, "dep_kinds": []} for need in package.needs if root_of(need)]
        nodes.append({"id": it, "features": list(package.features), "deps": needs})
    return json.dumps({"packages": packages, "resolve": {"nodes": nodes}})


def messages(name):
    """What cargo would print of the build scripts."""
    rows = [{"reason": "build-script-executed", "package_id": it, "cfgs": PACKAGES[it].options}
            for it in sorted(below(name))]
    return "".join(f"{json.dumps(it)}\n" for it in rows)


def rustc_words(name, tree):
    """How rustc is run on a crate: of the crates that it needs it has what it kept."""
    linked = [word for it in PACKAGES[name].needs for word in ("--extern", it)]
    linked += [word for it in PACKAGES[name].options for word in ("--cfg", it)]
    return [DEBIAN_RUSTC, "--crate-name", name, "--edition=2021", root_of(name), "--crate-type", "lib", "--cap-lints", "allow",
            *linked, "-Zforce-unstable-if-unmarked", "-Zunpretty=hir-tree", "-Ztime-passes", "-o", tree]


def library(folder, name):
    """A crate of the standard library; what is wrong where it cannot be compared."""
    tree = f"{folder}/tree"
    words = rustc_words(name, tree)
    env = {"RUSTC_BOOTSTRAP": "1", "STD_ENV_ARCH": "x86_64"}
    ran = run(words, cwd=folder, env={**os.environ, **env})
    if not os.path.exists(tree):
        return "rustc prints nothing of it"
    write(f"{folder}/metadata.json", metadata(name))
    write(f"{folder}/build.json", messages(name))
    write(f"{folder}/cfgs", run([DEBIAN_RUSTC, "--print", "cfg"], env={**os.environ, **env}).stdout)
    options = ["--metadata", f"{folder}/metadata.json", "--build", f"{folder}/build.json", "--cfg-file", f"{folder}/cfgs",
               *compiled_with(words)]
    return Build(name, SYSROOT, words, env, tree, passes(ran.stderr), options)
