//! The driver built for usage flags whose special bits are the lowest and UNINITIALIZED is exclusive.
const EXCLUSIVE: u16 = 36852;
const UNINITIALIZED: u16 = 32768;
const COMPLEX: u16 = 1;
const UNKNOWN: u16 = 2;
include!("../root.rs");
