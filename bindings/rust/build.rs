//! Says where the proved library is, and takes the Rust examples out of the repository's README.
use std::{env, fs, io, path::PathBuf};

const ARCHIVE: &str = "libtexture_tracker.a";
const README: &str = "../../README.md";
/// What the archive is compiled for: x86-64 Linux, with addresses of 64 bits.
const TARGET: [(&str, &str); 3] =
    [("CARGO_CFG_TARGET_ARCH", "x86_64"), ("CARGO_CFG_TARGET_OS", "linux"), ("CARGO_CFG_TARGET_POINTER_WIDTH", "64")];

fn main() -> io::Result<()> {
    println!("cargo::rerun-if-changed=build.rs");
    link();
    readme()
}

/// Only linking needs the archive, so what is wrong with it is a warning: `cargo check` and `cargo doc` go on. A build
/// then fails with "could not find native static library `texture_tracker`", below that warning.
fn link() {
    println!("cargo::rerun-if-env-changed=TEXTURE_TRACKER_LIB_DIR");
    let dir = env::var_os("TEXTURE_TRACKER_LIB_DIR").map_or_else(at_hand, PathBuf::from);
    let archive = dir.join(ARCHIVE);
    println!("cargo::rerun-if-changed={}", archive.display());
    if !TARGET.iter().all(|(key, value)| env::var(key).as_deref() == Ok(value)) {
        println!("cargo::warning=the proved library is compiled for x86-64 Linux and links into no other program");
    }
    if !archive.is_file() {
        println!(
            "cargo::warning={} is not there, so nothing can be linked. `tools/library`, at the top of the repository, \
             proves and writes it (some minutes the first time). If it stands elsewhere, set TEXTURE_TRACKER_LIB_DIR \
             to its directory (a relative path counts from the crate's).",
            archive.display()
        );
    }
    println!("cargo::rustc-link-search=native={}", dir.display());
    println!("cargo::rustc-link-lib=static=texture_tracker");
}

/// Where `tools/library` writes in a repository; or `lib`, where a tarball has the archive.
fn at_hand() -> PathBuf {
    let package = PathBuf::from(env::var_os("CARGO_MANIFEST_DIR").unwrap_or_default());
    let top = package.ancestors().nth(2).unwrap_or(&package);
    let [written, unpacked] = ["target/lib", "lib"].map(|dir| top.join(dir));
    if unpacked.join(ARCHIVE).is_file() {
        unpacked
    } else {
        written
    }
}

/// Writes the README with nothing but its blocks that are marked as Rust, for `lib.rs` to include as
/// documentation tests. To rustdoc the indented blocks would be Rust too. Lines keep their numbers.
fn readme() -> io::Result<()> {
    println!("cargo::rerun-if-changed={README}");
    let text = fs::read_to_string(README).unwrap_or_default();
    let mut inside = false;
    let mut kept = String::new();
    for line in text.lines() {
        let fence = line.starts_with("```");
        if inside || line.starts_with("```rust") {
            kept.push_str(line);
            inside = !(inside && fence);
        }
        kept.push('\n');
    }
    let out = PathBuf::from(env::var_os("OUT_DIR").unwrap_or_default());
    fs::write(out.join("readme.md"), kept)
}
