//! Tells where the core's archive stands, and what to do where it does not.
use std::path::PathBuf;

fn main() {
    let here = PathBuf::from(std::env::var_os("CARGO_MANIFEST_DIR").expect("cargo names the package's folder"));
    let archives = here.join("../target/staticlib");
    let archive = archives.join("librbu.a");
    println!("cargo::rerun-if-changed=build.rs");
    println!("cargo::rerun-if-changed={}", archive.display());
    println!("cargo::rustc-link-search=native={}", archives.display());
    // for the build script of a program that names the archive it links
    println!("cargo::metadata=archive={}", archive.display());
    if !archive.is_file() {
        println!("cargo::error=target/staticlib/librbu.a is not there: run `make` first, in the folder above rust/");
    }
}
