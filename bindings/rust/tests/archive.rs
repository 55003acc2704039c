//! What can be built without the proved library: all but what is linked. And without the standard library: the crate.
use std::{
    path::PathBuf,
    process::{Command, Output},
};

/// Cargo where the library is not.
fn cargo(arguments: &[&str]) -> (bool, String) {
    let mut cargo = Command::new(env!("CARGO"));
    cargo.args(arguments).args(["--offline", "--lib", "--manifest-path"]);
    cargo.arg(PathBuf::from(env!("CARGO_MANIFEST_DIR")).join("Cargo.toml"));
    let target = PathBuf::from(env!("CARGO_TARGET_TMPDIR")).join("no-archive");
    cargo.env("CARGO_TARGET_DIR", target).env("TEXTURE_TRACKER_LIB_DIR", "/nowhere");
    let Output { status, stderr, .. } = cargo.output().unwrap();
    (status.success(), String::from_utf8(stderr).unwrap())
}

#[test]
fn only_linking_needs_the_library() {
    for arguments in [&["check"][..], &["check", "--no-default-features"], &["doc", "--no-deps"]] {
        let (passed, said) = cargo(arguments);
        assert!(passed, "{arguments:?}: {said}");
        assert!(said.contains("/nowhere/libtexture_tracker.a is not there"), "{said}");
        assert!(said.contains("`tools/library`, at the top of the repository, proves and writes it"), "{said}");
        assert_eq!(said.matches("warning: ").count(), 1, "{said}");
    }
    let (passed, said) = cargo(&["build"]);
    assert!(!passed && said.contains("could not find native static library `texture_tracker`"), "{said}");
}
