//! Links the proved static library that `rt lib` builds in crates/facets.
use std::{env, path::PathBuf, process::exit};

fn main() {
    let package = env::var_os("CARGO_MANIFEST_DIR").expect("cargo sets CARGO_MANIFEST_DIR");
    let directory = PathBuf::from(package).join("../crates/facets/out");
    let library = directory.join("libfacets.a");
    println!("cargo:rerun-if-changed={}", library.display());
    if !library.is_file() {
        eprintln!("{} is missing: run `rt lib` in crates/facets", library.display());
        exit(1);
    }
    println!("cargo:rustc-link-search=native={}", directory.display());
    println!("cargo:rustc-link-lib=static=facets");
}
