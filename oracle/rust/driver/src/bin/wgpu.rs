//! The driver built for the constants of wgpu-types; tests/constants compares them with that crate.
const EXCLUSIVE: u16 = 3754;
const UNINITIALIZED: u16 = 1;
const COMPLEX: u16 = 8192;
const UNKNOWN: u16 = 16384;
include!("../root.rs");
