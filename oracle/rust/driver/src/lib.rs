//! The tracker as a library, for programs that call it in-process (bench/), with the usage flags of
//! document 01's bench samples. Only `direct` can be seen from outside.
#![allow(dead_code)]
const EXCLUSIVE: u16 = 20;
const UNINITIALIZED: u16 = 1;
const COMPLEX: u16 = 4096;
const UNKNOWN: u16 = 8192;
include!("root.rs");
pub mod direct;
