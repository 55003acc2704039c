//! The driver built for usage flags with no exclusive use at all.
const EXCLUSIVE: u16 = 0;
const UNINITIALIZED: u16 = 4;
const COMPLEX: u16 = 32768;
const UNKNOWN: u16 = 1;
include!("../root.rs");
