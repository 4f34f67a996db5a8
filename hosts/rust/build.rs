//! Links the static library that stands beside the hosts.
use std::path::Path;

fn main() {
    let here = std::env::var("CARGO_MANIFEST_DIR").expect("cargo sets it");
    let folder = Path::new(&here).join("../../target/staticlib");
    let library = folder.join("libexports.a");
    if !library.exists() {
        panic!("{} is missing; make it, from the root of the repository, by `hosts/library`", library.display());
    }
    println!("cargo::rustc-link-search=native={}", folder.display());
    println!("cargo::rustc-link-lib=static=exports");
    println!("cargo::rerun-if-changed={}", library.display());
}
