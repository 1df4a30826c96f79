//! Tells the command which core is linked in: the checksum of its archive.
use std::path::PathBuf;

#[allow(dead_code)]
#[path = "src/sha256.rs"]
mod sha256;

fn main() {
    println!("cargo::rerun-if-changed=build.rs");
    println!("cargo::rerun-if-changed=src/sha256.rs");
    // the wrapper tells where the archive stands, and says so where it does not
    let Some(archive) = std::env::var_os("DEP_RBU_ARCHIVE").map(PathBuf::from) else {
        println!("cargo::error=the wrapper does not tell where librbu.a stands");
        return;
    };
    println!("cargo::rerun-if-changed={}", archive.display());
    match std::fs::read(&archive) {
        Ok(bytes) => println!("cargo::rustc-env=RBU_ARCHIVE_SHA256={}", sha256::hex(&bytes)),
        Err(wrong) => println!("cargo::error={}: {wrong}", archive.display()),
    }
}
