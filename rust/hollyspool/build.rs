//! Links the proved archive, which `rt lib`, run in `crates/exports`, leaves in that crate's `out`.

use std::env;
use std::path::PathBuf;

fn main() {
    let crate_folder = env::var_os("CARGO_MANIFEST_DIR").expect("cargo names the crate's folder");
    let folder = PathBuf::from(crate_folder).join("../../crates/exports/out");
    let archive = folder.join("libexports.a");
    println!("cargo::rerun-if-changed={}", archive.display());
    if archive.exists() {
        println!("cargo::rustc-link-search=native={}", folder.display());
        println!("cargo::rustc-link-lib=static=exports");
    } else {
        println!(
            "cargo::error=no crates/exports/out/libexports.a: run `rt lib` in crates/exports first"
        );
    }
}
