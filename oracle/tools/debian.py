#!/usr/bin/env python3
"""Makes a copy of the workspace whose smallvec, arrayvec and bit-vec are those of Debian's packages.

    debian.py debian|unstable WORKSPACE

The packages are librust-smallvec-dev, librust-arrayvec-dev and librust-bit-vec-dev: `debian` has those that are
installed, or unpacked below ORACLE_REGISTRY, `unstable` those that oracle/fetch has unpacked. Only their sources are
taken: their manifests name optional crates that no offline cargo could resolve. Debian's bit-vec is older than
`BitVec::fill`, so a wrapper adds that one method.
"""
import os
import pathlib
import re
import shutil
import sys

ORACLE = pathlib.Path(__file__).resolve().parent.parent
RUST = ORACLE / "rust"
REGISTRIES = {"debian": (pathlib.Path(os.environ.get("ORACLE_REGISTRY", "/usr/share/cargo/registry")),
                         "its package is not installed"),
              "unstable": (ORACLE / "target" / "unstable", "oracle/fetch gets it")}
MANIFEST = """[package]
name = "{name}"
version = "{version}"
edition = "2018"

[features]
default = ["std"]
std = []
{more}"""
FILL = """//! Debian's bit-vec, and `fill`, which newer versions have.
pub use debian_bit_vec::BitBlock;

#[derive(Debug, Default)]
pub struct BitVec<B: BitBlock>(debian_bit_vec::BitVec<B>);

impl<B: BitBlock> BitVec<B> {
    pub fn fill(&mut self, value: bool) {
        for at in 0..self.0.len() {
            self.0.set(at, value)
        }
    }
}

impl<B: BitBlock> std::ops::Deref for BitVec<B> {
    type Target = debian_bit_vec::BitVec<B>;
    fn deref(&self) -> &Self::Target {
        &self.0
    }
}

impl<B: BitBlock> std::ops::DerefMut for BitVec<B> {
    fn deref_mut(&mut self) -> &mut Self::Target {
        &mut self.0
    }
}
"""


def find(suite, name):
    """The newest source of a package, and its version."""
    registry, missing = REGISTRIES[suite]
    found = sorted(registry.glob(f"{name}-[0-9]*"))
    if not found:
        sys.exit(f"build: no {name} below {registry}: {missing}")
    version = re.search(r'^version = "(.*)"', (found[-1] / "Cargo.toml").read_text(), re.M)[1]
    return found[-1] / "src", version


def crate(folder, name, version, more=""):
    folder.mkdir(parents=True, exist_ok=True)
    (folder / "Cargo.toml").write_text(MANIFEST.format(name=name, version=version, more=more))


def take(suite, name, folder, package=None):
    source, version = find(suite, name)
    crate(folder, package or name, version)
    shutil.copytree(source, folder / "src")
    print(f"{name}: Debian's {version}")


def main(suite, workspace):
    workspace.mkdir(parents=True, exist_ok=True)
    for part in ("driver", "stand-ins", "upstream"):
        shutil.rmtree(workspace / part, ignore_errors=True)
        shutil.copytree(RUST / part, workspace / part)
    shutil.copy(RUST / "Cargo.toml", workspace)
    crates = workspace / "stand-ins"
    for name in ("smallvec", "arrayvec", "bit-vec"):
        shutil.rmtree(crates / name)
    take(suite, "smallvec", crates / "smallvec")
    take(suite, "arrayvec", crates / "arrayvec")
    take(suite, "bit-vec", crates / "debian-bit-vec", "debian-bit-vec")
    crate(crates / "bit-vec", "bit-vec", "0.0.0",
          '\n[dependencies]\ndebian-bit-vec = { path = "../debian-bit-vec" }\n')
    (crates / "bit-vec" / "src").mkdir()
    (crates / "bit-vec" / "src" / "lib.rs").write_text(FILL)


if __name__ == "__main__":
    main(sys.argv[1], pathlib.Path(sys.argv[2]))
