//! Compiles the plain C and links it, and links the archive of the verified fill test.

use std::env;
use std::fs;
use std::path::{Path, PathBuf};
use std::process::Command;

const FLAGS: [&str; 6] = ["-std=c11", "-O3", "-Wall", "-Wextra", "-Werror", "-c"];

fn main() {
    let package = env::var("CARGO_MANIFEST_DIR").expect("cargo names the package's folder");
    let output = env::var("OUT_DIR").expect("cargo names a folder for what is built");
    link_plain(Path::new(&package), Path::new(&output));
    link_verified(Path::new(&package), Path::new(&output));
}

/// The C is compiled as its own users would, with no flag for this processor alone.
fn link_plain(package: &Path, output: &Path) {
    let folder = package.join("plain");
    println!("cargo::rerun-if-changed={}", folder.display());
    let library = output.join("libplain.a");
    // An archive that stands would keep the objects of sources that are gone.
    if library.exists() {
        fs::remove_file(&library).expect("the old archive can be removed");
    }
    let mut archive = Command::new("ar");
    archive.arg("rcs").arg(&library);
    for source in sources(&folder) {
        let name = source.file_stem().expect("a source has a name");
        let object = output.join(name).with_extension("o");
        let mut compile = Command::new("gcc");
        run(compile.args(FLAGS).arg(&source).arg("-o").arg(&object));
        archive.arg(object);
    }
    run(&mut archive);
    println!("cargo::rustc-link-search=native={}", output.display());
    println!("cargo::rustc-link-lib=static=plain");
}

/// The C sources of a folder, in the order of their names, so that the archive is always
/// the same.
fn sources(folder: &Path) -> Vec<PathBuf> {
    let entries = fs::read_dir(folder).expect("the folder of the C sources");
    let mut sources: Vec<PathBuf> = entries
        .map(|entry| entry.expect("an entry of the folder").path())
        .filter(|path| path.extension().is_some_and(|extension| extension == "c"))
        .collect();
    sources.sort();
    sources
}

fn run(command: &mut Command) {
    let is_done = command.status().is_ok_and(|status| status.success());
    if !is_done {
        println!("cargo::error=this failed: {command:?}");
    }
}

/// Each function begins a cache line: by its place in one a short loop takes up to half as
/// long again, and the place would change with whatever else is linked.
fn link_verified(package: &Path, output: &Path) {
    let archive = package.join("../../target/staticlib/libtimed.a");
    println!("cargo::rerun-if-changed={}", archive.display());
    if !archive.is_file() {
        let place = archive.display();
        println!("cargo::error={place} is missing: run `tools/build` first");
        return;
    }
    let mut align = Command::new("objcopy");
    align.args(["--set-section-alignment", ".text*=64"]);
    run(align.arg(&archive).arg(output.join("libtimed.a")));
    println!("cargo::rustc-link-lib=static=timed");
}
