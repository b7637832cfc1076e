use std::path::Path;

fn main() {
    println!("cargo::rustc-check-cfg=cfg(has_table)");
    println!("cargo::rustc-cfg=has_table");
    let out = std::env::var("OUT_DIR").unwrap();
    std::fs::write(Path::new(&out).join("table.rs"), "pub const ROWS: usize = 3;\n").unwrap();
}
