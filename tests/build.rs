//! Finds the static library under test: in the folder `SOCLETHYME_LIB`, or in
//! `../crates/export/out` seen from this package.

use std::env;
use std::path::PathBuf;

fn main() {
    let package = PathBuf::from(env::var("CARGO_MANIFEST_DIR").expect("cargo names the package"));
    let folder = match env::var_os("SOCLETHYME_LIB") {
        Some(folder) => package.join(folder),
        None => package.join("../crates/export/out"),
    };
    println!("cargo:rerun-if-env-changed=SOCLETHYME_LIB");
    println!(
        "cargo:rerun-if-changed={}",
        folder.join("libexport.a").display()
    );
    println!("cargo:rustc-link-search=native={}", folder.display());
    println!("cargo:rustc-link-lib=static=export");
}
