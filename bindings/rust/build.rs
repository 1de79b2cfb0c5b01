//! Links the static library: from the folder that MORELTURRET_LIB names; else from target/library at the top of the repository, or, where this crate was
//! installed in PREFIX/share/morelturret/rust, from PREFIX/lib.

use std::env;
use std::path::PathBuf;
use std::process::exit;

fn main() {
    println!("cargo:rerun-if-changed=build.rs");
    println!("cargo:rerun-if-env-changed=MORELTURRET_LIB");
    let named = env::var_os("MORELTURRET_LIB").filter(|folder| !folder.is_empty());
    let manifest = PathBuf::from(env::var_os("CARGO_MANIFEST_DIR").expect("cargo names the manifest's folder"));
    let folder = match &named {
        Some(folder) => PathBuf::from(folder),
        None if manifest.ends_with("share/morelturret/rust") => manifest.join("../../../lib"),
        None => manifest.join("../../target/library"),
    };
    let library = folder.join("libmorelturret.a");
    println!("cargo:rerun-if-changed={}", library.display());
    if !library.is_file() {
        let from = if named.is_some() { "which MORELTURRET_LIB names" } else { "and MORELTURRET_LIB names no other folder" };
        eprintln!("morelturret: there is no libmorelturret.a in {}, {from}.", folder.display());
        eprintln!("morelturret: `tools/build_library`, run at the top of the repository, builds it into target/library;");
        eprintln!("morelturret: `tools/build_library FOLDER` builds it into FOLDER, and MORELTURRET_LIB=FOLDER has it found there.");
        exit(1);
    }
    // An absolute path: the linker runs in another folder than this script.
    let folder = folder.canonicalize().unwrap_or(folder);
    println!("cargo:rustc-link-search=native={}", folder.display());
    println!("cargo:rustc-link-lib=static=morelturret");
}
