//! Where cargo puts what it builds.
use std::path::PathBuf;

/// The program of an example, which `cargo test` builds beside the tests.
pub fn example(name: &str) -> PathBuf {
    let test = std::env::current_exe().unwrap();
    let program = test.parent().and_then(|deps| deps.parent()).unwrap().join("examples").join(name);
    assert!(program.is_file(), "{} is not there: cargo build --examples", program.display());
    program
}
