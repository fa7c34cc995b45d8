//! Links the static library that `rt lib` writes in `crates/rangqoda`. `RANGQODA_LIB_DIR` names another folder to take it from.

use std::env;
use std::path::{Path, PathBuf};
use std::process::exit;

const ARCHIVE: &str = "librangqoda.a";

fn main() {
    println!("cargo:rerun-if-env-changed=RANGQODA_LIB_DIR");
    let folder = match env::var_os("RANGQODA_LIB_DIR") {
        Some(folder) => PathBuf::from(folder),
        None => {
            let here = env::var_os("CARGO_MANIFEST_DIR").expect("cargo sets CARGO_MANIFEST_DIR");
            Path::new(&here).join("../../crates/rangqoda/out")
        }
    };
    let archive = folder.join(ARCHIVE);
    println!("cargo:rerun-if-changed={}", archive.display());
    if !archive.is_file() {
        eprintln!("{} is not there.", archive.display());
        eprintln!("Make it by this command in the root of the repository: (cd crates/rangqoda && rt lib)");
        eprintln!("Or name the folder of one that was kept, by the variable RANGQODA_LIB_DIR.");
        exit(1);
    }
    println!("cargo:rustc-link-search=native={}", folder.display());
    println!("cargo:rustc-link-lib=static=rangqoda");
}
