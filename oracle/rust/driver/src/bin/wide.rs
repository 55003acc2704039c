//! The driver built for usage flags where every use is exclusive, UNINITIALIZED too.
const EXCLUSIVE: u16 = 61311;
const UNINITIALIZED: u16 = 2;
const COMPLEX: u16 = 4096;
const UNKNOWN: u16 = 128;
include!("../root.rs");
