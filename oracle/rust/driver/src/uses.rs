//! Stand-ins for wgpu-types (`wgt`): texture uses, selectors and the strict assertions.
use std::{
    fmt,
    ops::{BitAnd, BitOr, Range, Sub},
};

#[derive(Copy, Clone, PartialEq, Eq)]
pub(crate) struct TextureUses(u16);

impl TextureUses {
    pub const EXCLUSIVE: Self = Self(crate::EXCLUSIVE);
    pub const UNINITIALIZED: Self = Self(crate::UNINITIALIZED);
    pub const COMPLEX: Self = Self(crate::COMPLEX);
    pub const UNKNOWN: Self = Self(crate::UNKNOWN);

    pub const fn empty() -> Self {
        Self(0)
    }

    pub const fn bits(&self) -> u16 {
        self.0
    }

    pub const fn from_bits_retain(bits: u16) -> Self {
        Self(bits)
    }

    pub const fn is_empty(&self) -> bool {
        self.0 == 0
    }

    pub const fn intersects(&self, other: Self) -> bool {
        self.0 & other.0 != 0
    }
}

impl fmt::Debug for TextureUses {
    fn fmt(&self, f: &mut fmt::Formatter<'_>) -> fmt::Result {
        write!(f, "{}", self.0)
    }
}

impl BitOr for TextureUses {
    type Output = Self;
    fn bitor(self, other: Self) -> Self {
        Self(self.0 | other.0)
    }
}

impl BitAnd for TextureUses {
    type Output = Self;
    fn bitand(self, other: Self) -> Self {
        Self(self.0 & other.0)
    }
}

/// As in bitflags: the bits of the first that the second has not.
impl Sub for TextureUses {
    type Output = Self;
    fn sub(self, other: Self) -> Self {
        Self(self.0 & !other.0)
    }
}

impl bitflags::Flags for TextureUses {
    type Bits = u16;
    fn bits(&self) -> u16 {
        self.0
    }
    fn contains(&self, other: Self) -> bool {
        self.0 & other.0 == other.0
    }
}

#[derive(Clone, Debug, PartialEq, Eq)]
pub(crate) struct TextureSelector {
    pub mips: Range<u32>,
    pub layers: Range<u32>,
}

#[derive(Debug)]
pub(crate) enum TextureAspect {
    All,
}

#[derive(Debug)]
pub(crate) struct ImageSubresourceRange {
    pub aspect: TextureAspect,
    pub base_mip_level: u32,
    pub mip_level_count: Option<u32>,
    pub base_array_layer: u32,
    pub array_layer_count: Option<u32>,
}

#[cfg(feature = "strict_asserts")]
mod strict {
    macro_rules! strict_assert { ($($arg:tt)*) => { assert!($($arg)*) } }
    macro_rules! strict_assert_eq { ($($arg:tt)*) => { assert_eq!($($arg)*) } }
    macro_rules! strict_assert_ne { ($($arg:tt)*) => { assert_ne!($($arg)*) } }
    pub(crate) use {strict_assert, strict_assert_eq, strict_assert_ne};
}

#[cfg(not(feature = "strict_asserts"))]
mod strict {
    macro_rules! strict_assert {
        ($($arg:tt)*) => {};
    }
    macro_rules! strict_assert_eq {
        ($($arg:tt)*) => {};
    }
    macro_rules! strict_assert_ne {
        ($($arg:tt)*) => {};
    }
    pub(crate) use {strict_assert, strict_assert_eq, strict_assert_ne};
}

pub(crate) use strict::*;
