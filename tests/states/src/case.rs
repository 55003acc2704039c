//! What is wanted of the library under one choice of usage flags: wgpu-core's rule, and what docs/RULES.md adds to it.
use crate::upstream::RULES;
use std::fmt;

#[derive(Clone, Copy, PartialEq)]
pub struct Flags {
    pub exclusive: u32,
    pub uninitialized: u32,
    pub complex: u32,
    pub unknown: u32,
}

impl Flags {
    /// In the order of a table and of the calls that open one.
    pub fn words(self) -> [u32; 4] {
        [self.exclusive, self.uninitialized, self.complex, self.unknown]
    }

    pub fn of([exclusive, uninitialized, complex, unknown]: [u32; 4]) -> Self {
        Self { exclusive, uninitialized, complex, unknown }
    }
}

impl fmt::Display for Flags {
    fn fmt(&self, f: &mut fmt::Formatter) -> fmt::Result {
        let Self { exclusive, uninitialized, complex, unknown } = self;
        write!(f, "EXCLUSIVE {exclusive:#x}, UNINITIALIZED {uninitialized:#x}, COMPLEX {complex:#x}, UNKNOWN {unknown:#x}")
    }
}

/// The bits of a state, one by one, ascending.
pub fn bits(state: u32) -> impl DoubleEndedIterator<Item = u32> {
    (0..32).map(|k| 1 << k).filter(move |bit| state & bit != 0)
}

/// Every state, and some thousands of larger numbers, none of them a state: single bits, bits below another one, and a stride.
pub fn numbers() -> impl Iterator<Item = u32> {
    let bits = (16..32).map(|k| 1 << k).chain((0..16).map(|k| 0x1_0000 | 1 << k));
    (0..0x1_0000).chain(bits).chain((0x1_0001..=u32::MAX).step_by(0x9_E3B1))
}

/// Whether a number is one bit of sixteen.
pub fn is_bit(number: u32) -> bool {
    u16::try_from(number).is_ok_and(u16::is_power_of_two)
}

pub struct Case {
    pub flags: Flags,
    /// Which states are invalid, and which numbers one bit: the self-test puts wrong answers here.
    pub invalid_states: Vec<bool>,
    pub is_bit: fn(u32) -> bool,
    /// Whether to look at every place of a set and not at one alone.
    pub thorough: bool,
    /// The states that a call accepts.
    pub accepted: Vec<u16>,
    exclusive_bits: Vec<u32>,
}

impl Case {
    /// The mask must be one of `RULES`.
    pub fn new(flags: Flags, thorough: bool) -> Self {
        let rule = RULES.iter().find(|rule| u32::from(rule.exclusive) == flags.exclusive);
        let rule = rule.unwrap_or_else(|| panic!("upstream.rs has no rule for {flags}"));
        let invalid_states = (0..=u16::MAX).map(rule.invalid).collect();
        let mut exclusive_bits: Vec<u32> = bits(flags.exclusive).collect();
        if exclusive_bits.is_empty() {
            exclusive_bits.push(flags.uninitialized);
        }
        let mut case = Self { flags, invalid_states, is_bit, thorough, accepted: vec![], exclusive_bits };
        case.accepted = (0..=u16::MAX).filter(|&state| case.whole_fits(state.into())).collect();
        case
    }

    pub fn invalid(&self, state: u32) -> bool {
        self.invalid_states[state as usize]
    }

    /// Check 12.
    pub fn reserved(&self, state: u32) -> bool {
        state == 0 || state & (self.flags.complex | self.flags.unknown) != 0
    }

    /// Whether all of a texture can be in it.
    pub fn whole_fits(&self, word: u32) -> bool {
        word < 65_536 && !self.reserved(word) && !self.invalid(word)
    }

    /// Whether a range can be in it.
    pub fn range_fits(&self, word: u32) -> bool {
        word < 65_536 && word != 0 && word & self.flags.complex == 0 && !self.invalid(word)
    }

    /// Check 2.
    pub fn flags_fit(&self, flags: Flags) -> bool {
        let Flags { exclusive, uninitialized, complex, unknown } = flags;
        exclusive < 65_536
            && [uninitialized, complex, unknown].into_iter().all(self.is_bit)
            && uninitialized != complex
            && uninitialized != unknown
            && complex != unknown
            && (complex | unknown) & exclusive == 0
    }

    /// An exclusive state, another for each k as far as there are; where there is none, a state that stands in for it.
    pub fn exclusive(&self, k: usize) -> u32 {
        self.exclusive_bits[k % self.exclusive_bits.len()]
    }

    /// All uses together that are not exclusive; where there is none, a single one.
    pub fn shared(&self) -> u32 {
        let Flags { exclusive, uninitialized, complex, unknown } = self.flags;
        match 0xFFFF & !(exclusive | complex | unknown) {
            0 => uninitialized,
            all => all,
        }
    }
}
