//! Links the static library of the proved judge, from `SONSIPLEX_LIB_DIR` or the repository's
//! `crates/sonsiplex/out`.

use std::env;
use std::path::PathBuf;

fn main() {
    let manifest = env::var_os("CARGO_MANIFEST_DIR").expect("cargo sets CARGO_MANIFEST_DIR");
    let place = env::var_os("SONSIPLEX_LIB_DIR")
        .map(PathBuf::from)
        .unwrap_or_else(|| PathBuf::from(manifest).join("../../crates/sonsiplex/out"));
    let archive = place.join("libsonsiplex.a");
    if !archive.is_file() {
        println!(
            "cargo:warning=no libsonsiplex.a in {}; make it with `rt lib` in crates/sonsiplex",
            place.display()
        );
    }
    println!("cargo:rustc-link-search=native={}", place.display());
    println!("cargo:rustc-link-lib=static=sonsiplex");
    println!("cargo:rerun-if-changed={}", archive.display());
    println!("cargo:rerun-if-changed=build.rs");
    println!("cargo:rerun-if-env-changed=SONSIPLEX_LIB_DIR");
}
