//! Links liblayer_exports.a, the layers one by one, for these checks alone. It is
//! beside librackplan.a, whose folder the build of rust/rackplan tells.

use std::path::Path;
use std::process::exit;

fn main() {
    let folder = std::env::var_os("DEP_RACKPLAN_FOLDER").expect("rust/rackplan tells it");
    let folder = Path::new(&folder);
    let archive = folder.join("liblayer_exports.a");
    println!("cargo:rerun-if-changed={}", archive.display());
    if !archive.is_file() {
        eprintln!(
            "checks: there is no {}: run `make library rooms` in the repository",
            archive.display()
        );
        exit(1);
    }
    println!("cargo:rustc-link-search=native={}", folder.display());
    println!("cargo:rustc-link-lib=static=layer_exports");
}
