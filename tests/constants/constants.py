"""The constants of wgpu's texture uses, as each file has them: name to number."""
import os
import pathlib
import re
import subprocess
import tempfile

TOP = pathlib.Path(__file__).resolve().parents[2]
USES = TOP / "bindings/rust/src/uses.rs"
HEADER = TOP / "include/texture_tracker.h"
FLAGS = TOP / "oracle/flags.txt"
PREFIX = "TRACK_USE_"
# How Rust writes one: a name, and shifts or other names with bars between them.
UPSTREAM = re.compile(r"^\s*const (\w+) = ([^;]+);", re.M)
OURS = re.compile(r"^pub const (\w+): State =\s*State\(([^;]+)\);", re.M)
TERM = re.compile(r"1 << (\d+)|(?:Self::)?([A-Z]\w*)(?:\.bits\(\)|\.0)")
PRINTED = """#include <stdio.h>
#include "{header}"
int main(void) {{
{lines}
    return 0;
}}
"""


def number(text, known):
    """The value of terms with bars between them."""
    value = 0
    for term in text.split("|"):
        found = TERM.fullmatch(term.strip().rstrip(",").strip())
        if not found:
            raise ValueError(f"cannot read the constant '{text.strip()}'")
        shift, name = found.groups()
        value |= 1 << int(shift) if shift else known[name]
    return value


def read(form, text):
    known = {}
    for name, value in form.findall(text):
        known[name] = number(value, known)
    return known


def upstream(text):
    """Those of `TextureUses` in wgpu-types' texture.rs."""
    begin = text.index("pub struct TextureUses: u16 {")
    return read(UPSTREAM, text[begin:text.index("\n    }\n", begin)])


def uses():
    return read(OURS, USES.read_text())


def flags():
    """EXCLUSIVE, UNINITIALIZED, COMPLEX and UNKNOWN of the oracle's driver `wgpu`."""
    row = re.search(r"^wgpu (\d+) (\d+) (\d+) (\d+)$", FLAGS.read_text(), re.M)
    return dict(zip(("EXCLUSIVE", "UNINITIALIZED", "COMPLEX", "UNKNOWN"), map(int, row.groups())))


def header():
    """Those of the C header, as the C compiler has them."""
    names = sorted(set(re.findall(PREFIX + r"(\w+)", HEADER.read_text())))
    lines = "\n".join(f'    printf("{name} %lu\\n", (unsigned long)({PREFIX}{name}));' for name in names)
    with tempfile.TemporaryDirectory() as folder:
        source, program = pathlib.Path(folder, "print.c"), pathlib.Path(folder, "print")
        source.write_text(PRINTED.format(header=HEADER, lines=lines))
        subprocess.run([os.environ.get("CC", "cc"), str(source), "-o", str(program)], check=True)
        text = subprocess.run([str(program)], check=True, capture_output=True, text=True).stdout
    return {name: int(value) for name, value in map(str.split, text.splitlines())}
