#!/usr/bin/env python3
"""Compares wgpu-types' constants with this repository's: compare.py TEXTURE.RS"""
import hashlib
import pathlib
import sys

import constants

# src/texture.rs of wgpu-types 30.0.1, as Debian's package librust-wgpu-types-dev 30.0.1-1 has it.
SHA256 = "f6baac6fd095f5076d78de708f9fce14c0a73f34e2c25e1a123926abe85084e3"
BITS = 15
# The uses that may stand together; the tracker never asks for that mask.
ONLY_UPSTREAM = {"INCLUSIVE"}
# No constant of wgpu-types: wgpu-core is given that mask by the device. Here it is an example of one.
ONLY_HERE = {"ORDERED"}


def differences(where, ours, theirs, asked):
    """Every name that is missing, unknown or has another number."""
    for name in sorted(asked - set(ours)):
        yield f"{where}: {name} is missing; wgpu-types has {theirs[name]}"
    for name in sorted(set(ours) - ONLY_HERE):
        if name not in theirs:
            yield f"{where}: {name} is no constant of wgpu-types"
        elif ours[name] != theirs[name]:
            yield f"{where}: {name} is {ours[name]}; wgpu-types has {theirs[name]}"


def ordered_differs(all_ours):
    """The examples of an ordered mask are one."""
    if len({ours["ORDERED"] for ours in all_ours}) > 1:
        yield "ORDERED is not the same number in Rust and in C"


def main(path):
    content = pathlib.Path(path).read_bytes()
    if hashlib.sha256(content).hexdigest() != SHA256:
        print(f"constants: {path} is not wgpu-types 30.0.1's: its hash differs")
        return 1
    theirs = constants.upstream(content.decode())
    asked = set(theirs) - ONLY_UPSTREAM
    rust, flags = constants.uses(), constants.flags()
    found = list(differences("uses.rs", rust, theirs, asked)) + list(differences("flags.txt", flags, theirs, set(flags)))
    places = ["bindings/rust/src/uses.rs", "oracle/flags.txt"]
    if constants.HEADER.exists():
        header = constants.header()
        found += [*differences("texture_tracker.h", header, theirs, asked), *ordered_differs([rust, header])]
        places.append("include/texture_tracker.h")
    if sum(1 for value in theirs.values() if value & value - 1 == 0) != BITS:
        found.append(f"wgpu-types was not read as {BITS} bits and the masks over them")
    print("\n".join(found) or f"constants: {len(asked)} of wgpu-types 30.0.1 are the same in {', '.join(places)}")
    return 1 if found else 0


if __name__ == "__main__":
    sys.exit(main(*sys.argv[1:]))
