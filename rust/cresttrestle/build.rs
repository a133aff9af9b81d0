//! Links libcapi.a, the proved library as `tools/archive` writes it.

use std::path::{Path, PathBuf};

const DIR: &str = "CRESTTRESTLE_LIB";

fn main() {
    println!("cargo::rerun-if-env-changed={DIR}");
    let dir = match std::env::var_os(DIR) {
        Some(dir) => PathBuf::from(dir),
        None => Path::new(env!("CARGO_MANIFEST_DIR")).join("../../target/staticlib"),
    };
    let lib = dir.join("libcapi.a");
    println!("cargo::rerun-if-changed={}", lib.display());
    if !lib.is_file() {
        println!(
            "cargo::error={} is missing: run `tools/archive` at the top of the repository, or name the folder that holds libcapi.a in {DIR}",
            lib.display()
        );
        return;
    }
    println!("cargo::rustc-link-search=native={}", dir.display());
    println!("cargo::rustc-link-lib=static=capi");
}
