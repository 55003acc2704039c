//! Which usage flags are looked at.
use crate::case::{bits, Case, Flags};
use crate::upstream::RULES;

/// Each mask with up to three choices of the other flags, so that what is reserved under one is a use under another; and the flags of
/// oracle/flags.txt.
pub fn all() -> Vec<Case> {
    let first_thorough = |(k, flags)| Case::new(flags, k == 0);
    let chosen = RULES.iter().flat_map(|rule| choices(rule.exclusive.into()).into_iter().enumerate().map(first_thorough));
    chosen.chain(named().into_iter().map(|(_, flags)| Case::new(flags, false))).collect()
}

/// COMPLEX and UNKNOWN are two bits that the mask leaves, the lowest, those in the middle the other way round, or the highest;
/// UNINITIALIZED is any other bit.
fn choices(exclusive: u32) -> Vec<Flags> {
    let free: Vec<u32> = bits(0xFFFF & !exclusive).collect();
    let mut places = vec![0, free.len() / 2 - 1, free.len() - 2];
    places.dedup();
    let flags = places.into_iter().enumerate().map(|(k, at)| {
        let (complex, unknown) = if k == 1 { (free[at + 1], free[at]) } else { (free[at], free[at + 1]) };
        let mut others = bits(0xFFFF & !(complex | unknown));
        let uninitialized = if k == 1 { others.next_back() } else { others.nth(k) }.unwrap();
        Flags { exclusive, uninitialized, complex, unknown }
    });
    flags.collect()
}

/// The lines of oracle/flags.txt.
pub fn named() -> Vec<(&'static str, Flags)> {
    let lines = include_str!("../../../oracle/flags.txt").lines().filter(|line| !line.starts_with('#'));
    lines
        .map(|line| {
            let (name, numbers) = line.split_once(' ').expect("a name and numbers");
            let numbers: Vec<u32> = numbers.split(' ').map(|number| number.parse().expect("a number")).collect();
            (name, Flags::of(numbers.try_into().expect("four numbers")))
        })
        .collect()
}
