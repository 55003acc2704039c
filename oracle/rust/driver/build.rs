//! Writes OUT_DIR/texture.rs: the bytes of upstream/texture.rs and one more line, which declares
//! a child module, since only a child of texture.rs sees its private fields.
use std::{env, fs, path::Path};

fn main() {
    let package = env::var("CARGO_MANIFEST_DIR").unwrap();
    let out = env::var("OUT_DIR").unwrap();
    let upstream = Path::new(&package).join("../upstream/texture.rs");
    let child = Path::new(&package).join("src/peek.rs");

    let mut text = fs::read(&upstream).unwrap();
    assert!(text.ends_with(b"\n"));
    text.extend(format!("#[path = {child:?}] pub(crate) mod peek;\n").into_bytes());
    fs::write(Path::new(&out).join("texture.rs"), text).unwrap();
    let declaration = "#[path = \"texture.rs\"]\npub(crate) mod texture;\n";
    fs::write(Path::new(&out).join("texture_mod.rs"), declaration).unwrap();

    println!("cargo:rerun-if-changed=build.rs");
    println!("cargo:rerun-if-changed={}", upstream.display());
}
