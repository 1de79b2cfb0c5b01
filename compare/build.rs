//! Says where the Rust source stands, cuts out of it what cannot be included whole, and links the port's archives.

use std::env;
use std::fs;
use std::path::{Path, PathBuf};

fn main() {
    let here = PathBuf::from(env::var("CARGO_MANIFEST_DIR").unwrap());
    println!("cargo:rerun-if-env-changed=MORELTURRET_RUST_SRC");
    let source = env::var("MORELTURRET_RUST_SRC").map(PathBuf::from).unwrap_or_else(|_| here.join("../../shared/docs/src"));
    let core = source.join("crates/geo-polygonize-core/src");
    let out = PathBuf::from(env::var("OUT_DIR").unwrap());

    let grid = core.join("noding/grid.rs");
    let soa = core.join("utils/soa.rs");
    println!("cargo:rustc-env=COMPARE_GRID={}", watched(&grid).display());
    println!("cargo:rustc-env=COMPARE_SOA={}", watched(&soa).display());

    // `SnapNoder::snap`: from its first line to the line that closes it.
    let snap = read(&core.join("noding/snap.rs"));
    let from = position(&snap, "    pub(crate) fn snap(&self, c: Coord3D) -> Coord3D {");
    let to = from + position(&snap[from..], "    }");
    fs::write(out.join("snap.rs"), format!("impl SnapNoder {{\n{}\n}}\n", snap[from..=to].join("\n"))).unwrap();

    // The candidates of noding/mod.rs: all that stands before its list of modules.
    let noding = read(&core.join("noding/mod.rs"));
    let modules = position(&noding, "pub mod grid;");
    fs::write(out.join("candidates.rs"), noding[..modules].join("\n") + "\n").unwrap();

    // The inner walk, which is no part of the library. Each archive exports only its own functions, so the two link side by side.
    println!("cargo:rerun-if-env-changed=MORELTURRET_INNER_LIB");
    let archive = PathBuf::from(env::var("MORELTURRET_INNER_LIB").expect("MORELTURRET_INNER_LIB names the inner walk's archive"));
    println!("cargo:rerun-if-changed={}", archive.display());
    println!("cargo:rustc-link-search=native={}", archive.parent().unwrap().display());
    let name = archive.file_stem().unwrap().to_str().unwrap();
    println!("cargo:rustc-link-lib=static={}", name.strip_prefix("lib").unwrap());
}

fn watched(path: &Path) -> &Path {
    println!("cargo:rerun-if-changed={}", path.display());
    path
}

fn read(path: &Path) -> Vec<String> {
    let text = fs::read_to_string(watched(path)).unwrap_or_else(|e| panic!("{}: {e}", path.display()));
    text.lines().map(String::from).collect()
}

fn position(lines: &[String], line: &str) -> usize {
    lines.iter().position(|l| l == line).unwrap_or_else(|| panic!("the Rust source has no line {line:?}"))
}
