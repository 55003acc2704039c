//! Links the port: the archive that `tools/library` writes. BENCH_ARCHIVE names another one.
use std::{env, path::PathBuf};

fn main() {
    let package = PathBuf::from(env::var("CARGO_MANIFEST_DIR").unwrap());
    let own = package.join("../target/lib/libtexture_tracker.a");
    let archive = env::var_os("BENCH_ARCHIVE").map_or(own, PathBuf::from);
    println!("cargo:rustc-link-arg={}", archive.display());
    println!("cargo:rerun-if-changed={}", archive.display());
    println!("cargo:rerun-if-env-changed=BENCH_ARCHIVE");
}
