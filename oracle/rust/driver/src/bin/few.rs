//! The driver built for usage flags with two exclusive uses, UNINITIALIZED one of them.
const EXCLUSIVE: u16 = 24;
const UNINITIALIZED: u16 = 16;
const COMPLEX: u16 = 1;
const UNKNOWN: u16 = 32768;
include!("../root.rs");
