//! Links the library that `rt lib` writes in crates/exports.

use std::env;
use std::path::Path;

fn main() {
    let here = env::var("CARGO_MANIFEST_DIR").expect("set by cargo");
    let folder = Path::new(&here).join("../../crates/exports/out");
    println!("cargo:rustc-link-search=native={}", folder.display());
    println!("cargo:rustc-link-lib=static=exports");
    let library = folder.join("libexports.a");
    println!("cargo:rerun-if-changed={}", library.display());
}
