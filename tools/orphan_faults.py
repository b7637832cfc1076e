"""What `defmap orphans` tells of folders, for tools/defmap-faults."""
import json

from faults import Fault, Link

ASK = ["orphans", "lib.rs"]


def told(reason, count=1):
    return f"left out: {reason}: {count}"


def named_faults():
    """Files that words name which are no modules, and those that nothing names."""
    reason = "files that cfg, a macro call or an include may bring"
    lib = "#[cfg(windows)] mod win;\ncfg_fs! { pub mod fs { mod deep; } }\n#[cfg_attr(windows, path = \"w.rs\")] mod sys;\n" \
          "const T: &str = include_str!(\"text.rs\");\nfn f() { include!(\"inner/code.rs\") }\n"
    files = {"lib.rs": lib, "win.rs": "mod more;", "win/more.rs": "", "fs/deep.rs": "", "w.rs": "", "sys.rs": "", "text.rs": "",
             "inner/code.rs": "", "more.rs": "", "deep.rs": ""}
    made = {"lib.rs": "macro_rules! m { ($n:ident) => { mod $n; } }\nm!(a);", "a.rs": ""}
    return [
        Fault("files that words name", files, ASK, 1, out=["deep.rs", "more.rs"], whole=True, told=[told(reason, 6)]),
        Fault("a file that a macro names by its variable", made, ASK, 1, out=["a.rs"], whole=True, told=["incomplete: 1 of 1 modules"]),
        Fault("the same, strictly", {**made, "a.rs": Link("lib.rs")}, [*ASK, "--strict"], 3, whole=True, told=[told("links")]),
    ]


def folder_faults():
    """Folders that are left out, and those that are not."""
    out = {"lib.rs": "", ".git/x.rs": "", "target/y.rs": "", "other/Cargo.toml": "", "other/src/lib.rs": "", "a/b/c.rs": "",
           "notes.txt": "", "a/.hidden.rs": ""}
    reasons = [told("hidden folders"), told("folders named target"), told("folders of other packages")]
    reached = {"lib.rs": "#[path = \"target/x.rs\"] mod x;", "target/x.rs": "", "target/y.rs": "", "b/target/z.rs": ""}
    linked = {"lib.rs": "", "folder/a.rs": "", "l.rs": Link("folder/a.rs"), "again": Link("folder"), "up": Link("."), "text": Link("lib.rs")}
    odd = {"lib.rs": "", "a\udcff.rs": "", "b\udcfe/c.rs": ""}
    return [
        Fault("folders that are left out", out, ASK, 1, out=["a/.hidden.rs", "a/b/c.rs"], whole=True, told=reasons),
        Fault("a folder target that has modules", reached, ASK, 1, out=["target/y.rs"], whole=True, told=[told("folders named target")]),
        Fault("links", linked, ASK, 1, out=["folder/a.rs"], whole=True, told=[told("links", 3)]),
        Fault("names that are no UTF-8", odd, ASK, 1, out=["a\\xff.rs"], whole=True, told=[told("names that are no UTF-8")]),
    ]


def target_faults(folder):
    """Files of other targets, by their names and by metadata."""
    reason = "files of other targets"
    by_name = {"src/lib.rs": "mod a;", "src/a.rs": "", "src/main.rs": "mod own;", "src/own.rs": "", "src/bin/t.rs": "",
               "src/bin/u/main.rs": "mod v;", "src/bin/u/v.rs": "", "src/bin/u/w.rs": "", "src/tests/t.rs": "", "src/build.rs": ""}
    package = {"Cargo.toml": "", "lib.rs": "", "build.rs": "", "tests/t.rs": "", "tests/u/main.rs": "", "tests/u/v.rs": "",
               "benches/b.rs": "", "examples/e.rs": ""}
    kinds = (("lib", "lib"), ("test", "odd"))
    targets = [{"kind": [kind], "name": name, "src_path": f"{folder}/{name}.rs", "edition": "2021"} for kind, name in kinds]
    described = {"packages": [{"name": "lib", "version": "1.0", "id": "1", "edition": "2021", "targets": targets}],
                 "resolve": {"nodes": [{"id": "1", "features": [], "deps": []}]}}
    known = {"lib.rs": "", "odd.rs": "mod more;", "more.rs": "", "main.rs": "", "m.json": json.dumps(described)}
    return [
        Fault("files of other targets", by_name, ["orphans", "src/lib.rs"], 1, whole=True, told=[told(reason, 5)],
              out=["src/bin/u/w.rs", "src/build.rs", "src/tests/t.rs"]),
        Fault("files of other targets beside a manifest", package, ASK, 1, whole=True, out=["tests/u/v.rs"], told=[told(reason, 5)]),
        Fault("files of other targets by metadata", known, [*ASK, "--metadata", "m.json"], 1, whole=True, out=["main.rs"],
              told=[told(reason, 2)]),
        Fault("the same by its package", known, ["orphans", "--metadata", "m.json", "--package", "lib"], 1, whole=True,
              out=[f"{folder}/main.rs"], told=[told(reason, 2)]),
    ]


def orphan_faults(folder):
    text = {"lib.rs": "mod a;", "a.rs": "mod b;", "a/b.rs": ""}
    known = {"lib.rs": "mod a;", "a.rs": "pub use other::X;", "x.rs": "pub struct X;"}
    both = [*ASK, "--extern", "other=x.rs"]
    rows = ['{"reason":"orphan","at":{"file":"old.rs","line":0,"column":0}}', '{"reason":"left_out","what":"links","count":1}']
    return [
        Fault("files each of which is reached", text, ASK, 0, whole=True),
        Fault("files that nothing reaches", {**text, "old.rs": "", "a/old.rs": ""}, ASK, 1, out=["a/old.rs", "old.rs"], whole=True),
        Fault("a file that another crate reaches", known, both, 0, whole=True),
        Fault("the same, where it is not given", known, ASK, 1, out=["x.rs"], whole=True),
        Fault("files that nothing reaches, as JSON", {**text, "old.rs": "", "l.rs": Link("a.rs")}, [*ASK, "--json"], 1, out=rows,
              whole=True),
        Fault("files around standard input", {}, ["orphans", "-"], 2, told=["standard input is in no folder"]),
        Fault("files around a fixture", {"f": "fn f() {}"}, ["orphans", "--fixture", "f"], 2, told=["a fixture is in no folder"]),
        *named_faults(), *folder_faults(), *target_faults(folder),
    ]
