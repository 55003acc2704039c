//! Links the library, and cuts wgpu-core's rule out of its own files (oracle/tools/verify.py checks that they are).
use std::{env, fs, path::PathBuf};

const UPSTREAM: &str = "../../oracle/rust/upstream";
const IMPLEMENTED: &str = "impl ResourceUses for TextureUses {\n";

fn main() {
    println!("cargo:rerun-if-changed=build.rs");
    link();
    let rules = read("mod.rs");
    let wanted = cut(&rules, "pub(crate) trait ResourceUses:\n");
    let rule = cut(&rules, "fn invalid_resource_state<T: ResourceUses>(state: T) -> bool {\n");
    // In place of the one type that wgpu-core has: one for each mask. What it implements is not touched.
    let uses = read("texture.rs");
    let body = &cut(&uses, IMPLEMENTED)[IMPLEMENTED.len()..];
    let uses = format!("impl<const MASK: u16> ResourceUses for Uses<MASK> {{\n{body}");
    let out = PathBuf::from(env::var_os("OUT_DIR").unwrap());
    fs::write(out.join("upstream.rs"), [wanted, rule, &uses].join("\n")).unwrap();
}

fn link() {
    println!("cargo:rerun-if-env-changed=TEXTURE_TRACKER_LIB_DIR");
    let package = PathBuf::from(env::var_os("CARGO_MANIFEST_DIR").unwrap());
    let own = package.join("../../target/lib");
    let archive = env::var_os("TEXTURE_TRACKER_LIB_DIR").map_or(own, PathBuf::from).join("libtexture_tracker.a");
    println!("cargo:rerun-if-changed={}", archive.display());
    println!("cargo:rustc-link-arg={}", archive.display());
}

fn read(name: &str) -> String {
    let path = format!("{UPSTREAM}/{name}");
    println!("cargo:rerun-if-changed={path}");
    fs::read_to_string(&path).unwrap_or_else(|error| panic!("{path}: {error}"))
}

/// An item that stands once in a file: from its first line up to the brace that closes it.
fn cut<'a>(text: &'a str, first_line: &str) -> &'a str {
    let places: Vec<usize> = text.match_indices(first_line).map(|(at, _)| at).collect();
    let [start] = places[..] else { panic!("wgpu-core has {} of {first_line:?}, not one", places.len()) };
    let end = text[start..].find("\n}\n").unwrap_or_else(|| panic!("{first_line:?} does not end"));
    &text[start..start + end + "\n}\n".len()]
}
