//! Links the static library of the proved scanner.

use std::env;
use std::path::{Path, PathBuf};

/// The folder of the library: the one that `SCANNER_LIB` names, or else `target/staticlib` of the repository.
fn folder() -> PathBuf {
    match env::var_os("SCANNER_LIB") {
        Some(folder) => PathBuf::from(folder),
        None => Path::new(env!("CARGO_MANIFEST_DIR")).join("../../target/staticlib"),
    }
}

fn main() {
    let folder = folder();
    let library = folder.join("libscanner.a");
    println!("cargo:rerun-if-env-changed=SCANNER_LIB");
    println!("cargo:rerun-if-changed={}", library.display());
    if !library.is_file() {
        eprintln!("there is no {}", library.display());
        eprintln!("`bindings/build` writes it; SCANNER_LIB may name another folder that has it");
        std::process::exit(1);
    }
    println!("cargo:rustc-link-search=native={}", folder.display());
    println!("cargo:rustc-link-lib=static=scanner");
}
