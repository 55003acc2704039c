//! wgpu-core's `invalid_resource_state`, as it stands in oracle/rust/upstream, under several masks.
use core::{fmt, ops};

// `ResourceUses`, `invalid_resource_state`, and what wgpu-core implements for `TextureUses`, here for `Uses`: see build.rs.
include!(concat!(env!("OUT_DIR"), "/upstream.rs"));

/// In place of wgpu-types' `TextureUses`, which has one mask of exclusive states: sixteen bits, and any mask.
#[derive(Clone, Copy, Debug, PartialEq)]
struct Uses<const MASK: u16>(u16);

type TextureSelector = ();

/// What the macro `bitflags` gives to `TextureUses`.
impl<const MASK: u16> Uses<MASK> {
    const EXCLUSIVE: Self = Self(MASK);

    fn bits(&self) -> u16 {
        self.0
    }

    fn intersects(&self, other: Self) -> bool {
        self.0 & other.0 != 0
    }
}

impl<const MASK: u16> ops::BitAnd for Uses<MASK> {
    type Output = Self;
    fn bitand(self, other: Self) -> Self {
        Self(self.0 & other.0)
    }
}

impl<const MASK: u16> ops::BitOr for Uses<MASK> {
    type Output = Self;
    fn bitor(self, other: Self) -> Self {
        Self(self.0 | other.0)
    }
}

fn invalid<const MASK: u16>(state: u16) -> bool {
    invalid_resource_state(Uses::<MASK>(state))
}

/// A mask, and whether wgpu-core calls a state invalid under it.
pub struct Rule {
    pub exclusive: u16,
    pub invalid: fn(u16) -> bool,
}

macro_rules! rules {
    ($($mask:literal)*) => {
        &[$(Rule { exclusive: <Uses<$mask> as ResourceUses>::EXCLUSIVE.0, invalid: invalid::<$mask> }),*]
    };
}

/// No bit; one, at either end of either byte; several of one byte, and all; some of both; all but two. Those of oracle/flags.txt are here.
#[rustfmt::skip]
pub const RULES: &[Rule] = rules![
    0x0000 0x0001 0x0080 0x0100 0x8000
    0x0014 0x0018 0x00FF 0xFF00
    0x0180 0x8001 0x5555 0x0EAA 0x8FF4
    0xEF7F 0x3FFF 0xFFFC 0x7FFE
];
