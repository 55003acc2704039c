//! Random calls through this crate and through wgpu-core's own code, every line of their answers compared.
//!
//! `./compare` runs ten times as many. Where that is not built, or there is no Python to hold the two together, the
//! test says so and passes.
mod built;
use std::{
    io::{self, Write},
    path::{Path, PathBuf},
    process::Command,
};

const CALLS: &str = "20000";

/// Says it also where the test harness keeps what a passing test prints.
fn tell(text: &str) {
    let _ = writeln!(io::stderr(), "tests/oracle.rs: {text}");
}

fn has_python() -> bool {
    Command::new("python3").arg("--version").output().is_ok()
}

/// Where `oracle/build` puts what it builds: it knows.
fn drivers(oracle: &Path) -> Option<PathBuf> {
    let told = Command::new(oracle.join("build")).arg("--where").output().ok()?;
    Some(PathBuf::from(String::from_utf8(told.stdout).ok()?.trim_end()))
}

#[test]
fn wgpu_core_answers_the_same() {
    let oracle = PathBuf::from(env!("CARGO_MANIFEST_DIR")).join("../../oracle");
    if !drivers(&oracle).is_some_and(|folder| folder.join("bench").is_file()) {
        return tell("skipped: the oracle is not built; `oracle/build`, at the top of the repository, builds it");
    }
    if !has_python() {
        return tell("skipped: there is no python3");
    }
    let mut compare = Command::new("python3");
    compare.arg(oracle.join("compare")).args(["--no-build", "--safe", "--room", "786432"]);
    compare.args(["--seed", "cargo test", "--calls", CALLS]);
    let done = compare.arg("--program").arg(built::example("oracle")).output().unwrap();
    let said = String::from_utf8_lossy(&done.stdout);
    assert!(done.status.success(), "{said}{}", String::from_utf8_lossy(&done.stderr));
    tell(said.lines().find(|line| line.starts_with("in all:")).unwrap_or("no summary"));
}
