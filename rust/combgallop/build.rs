//! Links the archive of the verified library.

use std::env;
use std::path::Path;

fn main() {
    let package = env::var("CARGO_MANIFEST_DIR").expect("cargo names the package's folder");
    let folder = Path::new(&package).join("../../target/staticlib");
    let archive = folder.join("libcapi.a");
    println!("cargo::rerun-if-changed={}", archive.display());
    if !archive.is_file() {
        let place = archive.display();
        println!("cargo::error={place} is missing: run `tools/build` first");
        return;
    }
    println!("cargo::rustc-link-search=native={}", folder.display());
    println!("cargo::rustc-link-lib=static=capi");
}
