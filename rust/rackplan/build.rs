//! Links librackplan.a, which `make library` builds.
//! `RACKPLAN_LIB_DIR` names its folder; without it, it is the repository's
//! target/staticlib. Crates that stand on this one find the folder in
//! `DEP_RACKPLAN_FOLDER`.

use std::path::PathBuf;
use std::process::exit;

const VARIABLE: &str = "RACKPLAN_LIB_DIR";

fn main() {
    println!("cargo:rerun-if-env-changed={VARIABLE}");
    let folder = archive_folder();
    let archive = folder.join("librackplan.a");
    println!("cargo:rerun-if-changed={}", archive.display());
    if !archive.is_file() {
        eprintln!(
            "rackplan: there is no {}: run `make library` in the repository (for rust/checks \
             `make library rooms`), or set {VARIABLE} to the folder that has librackplan.a",
            archive.display()
        );
        exit(1);
    }
    println!("cargo:folder={}", folder.display());
    println!("cargo:rustc-link-search=native={}", folder.display());
    println!("cargo:rustc-link-lib=static=rackplan");
}

fn archive_folder() -> PathBuf {
    let folder = match std::env::var_os(VARIABLE) {
        Some(folder) if !folder.is_empty() => PathBuf::from(folder),
        _ => {
            let manifest_folder = std::env::var_os("CARGO_MANIFEST_DIR").expect("cargo sets it");
            return PathBuf::from(manifest_folder).join("../../target/staticlib");
        }
    };
    // Cargo runs this program in the crate's folder, so a relative path would
    // not mean what it means in the user's shell.
    if folder.is_relative() {
        eprintln!("rackplan: {VARIABLE} must be an absolute path, and is {folder:?}");
        exit(1);
    }
    folder
}
