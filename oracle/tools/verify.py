#!/usr/bin/env python3
"""Checks that the Rust is wgpu-core's, unchanged.

The files of rust/upstream have the hashes of SHA256SUMS, and are those of docs/src/track where the
repository has them. Every marked block of the driver's track/mod.rs stands in upstream/mod.rs as it is.
"""
import hashlib
import pathlib
import re
import sys

ORACLE = pathlib.Path(__file__).resolve().parent.parent
UPSTREAM = ORACLE / "rust" / "upstream"
PAPERS = ORACLE.parent / "docs" / "src" / "track"
BLOCK = re.compile(r"^// >>> verbatim\n(.*?)^// <<<\n", re.S | re.M)
BLOCKS = 7


def changed_files():
    """The names of upstream files that are not what they should be."""
    for line in (UPSTREAM / "SHA256SUMS").read_text().splitlines():
        digest, name = line.split()
        content = (UPSTREAM / name).read_bytes()
        paper = PAPERS / name
        if hashlib.sha256(content).hexdigest() != digest:
            yield name
        elif paper.exists() and paper.read_bytes() != content:
            yield f"{name} (docs/src has another)"


def changed_blocks():
    """The first lines of marked blocks that upstream/mod.rs does not have."""
    upstream = (UPSTREAM / "mod.rs").read_text()
    blocks = BLOCK.findall((ORACLE / "rust/driver/src/track/mod.rs").read_text())
    if len(blocks) != BLOCKS:
        yield f"{len(blocks)} blocks are marked, not {BLOCKS}"
    yield from (block.splitlines()[0] for block in blocks if block not in upstream)


def main():
    faults = [f"changed file: {name}" for name in changed_files()]
    faults += [f"changed block: {name}" for name in changed_blocks()]
    print("\n".join(faults) or "upstream: files and blocks unchanged")
    return bool(faults)


if __name__ == "__main__":
    sys.exit(main())
