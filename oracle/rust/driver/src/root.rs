// The body of every binary's crate root. The usage flags are constants of another crate in
// wgpu, so each set of them needs a build of its own; the binaries are those builds.
//
// texture.rs and metadata.rs name the crates `wgt` and `hal`. Both lean on the usage flags, so
// they are stood in for inside this crate, under those names.
extern crate alloc;
extern crate self as hal;
extern crate self as wgt;

#[allow(dead_code)]
mod barriers;
mod driver;
#[allow(dead_code)]
mod resource;
mod snatch;
#[allow(dead_code, unused_imports, unused_unsafe, unused_variables)]
mod track;
#[allow(dead_code)]
mod uses;

pub(crate) use barriers::*;
pub(crate) use uses::*;

fn main() {
    driver::main()
}
