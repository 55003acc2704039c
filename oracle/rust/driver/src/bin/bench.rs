//! The driver built for the usage flags of document 01's bench samples.
const EXCLUSIVE: u16 = 20;
const UNINITIALIZED: u16 = 1;
const COMPLEX: u16 = 4096;
const UNKNOWN: u16 = 8192;
include!("../root.rs");
