//! Hands wrong rules to the comparisons: each comparison that a rule concerns must find a difference.
use crate::case::{is_bit, Case};
use crate::tally::Tally;
use crate::{flags, palettes, OF_STATES};

/// Whether a state is invalid under a mask. (That no bit counts as one is not among them: such a state meets no mask.)
#[rustfmt::skip]
const WRONG_STATES: [(&str, fn(u16, u16) -> bool); 11] = [
    ("no state is invalid", |_, _| false),
    ("no exclusive state is one bit", |mask, s| s & mask != 0),
    ("exclusive states are not looked for", |_, s| s.count_ones() != 1),
    ("exclusive states of the high byte are not looked for", |mask, s| s & mask & 0xFF != 0 && s.count_ones() != 1),
    ("only exclusive bits are counted", |mask, s| (s & mask).count_ones() > 1),
    ("two bits are one", |mask, s| s & mask != 0 && s.count_ones() > 2),
    ("bit 15 is not counted", |mask, s| s & mask != 0 && (s & 0x7FFF).count_ones() != 1),
    ("bit 0 is not counted", |mask, s| s & mask != 0 && (s & 0xFFFE).count_ones() != 1),
    ("the high byte is not counted", |mask, s| s & mask != 0 && (s & 0x00FF).count_ones() != 1),
    ("the low byte is not counted", |mask, s| s & mask != 0 && (s & 0xFF00).count_ones() != 1),
    ("a bit in each byte is one", |mask, s| s & mask != 0 && ((s & 0x00FF).count_ones() > 1 || (s & 0xFF00).count_ones() > 1)),
];

/// Whether a number is one bit of sixteen.
const WRONG_BITS: [(&str, fn(u32) -> bool); 5] = [
    ("none or one of sixteen bits", |x| x < 65_536 && x.count_ones() <= 1),
    ("one or two of sixteen bits", |x| is_bit(x) || x < 65_536 && x.count_ones() == 2),
    ("one of fifteen bits", |x| x < 32_768 && x.count_ones() == 1),
    ("one of thirty-two bits", u32::is_power_of_two),
    ("one among the low sixteen bits", |x| (x & 0xFFFF).count_ones() == 1),
];

/// What goes unnoticed: a comparison and a rule.
pub fn missed() -> Vec<String> {
    let wgpu = palettes::named().into_iter().find(|(name, _)| *name == "wgpu").expect("oracle/flags.txt has wgpu's flags").1;
    let mut missed = vec![];
    for (name, invalid) in WRONG_STATES {
        let mut case = Case::new(wgpu, false);
        case.invalid_states = (0..=u16::MAX).map(|state| invalid(wgpu.exclusive as u16, state)).collect();
        for (comparison, compare) in OF_STATES {
            if !notices(&case, compare) {
                missed.push(format!("{comparison}: {name}"));
            }
        }
    }
    for (name, wrong) in WRONG_BITS {
        let mut case = Case::new(wgpu, false);
        case.is_bit = wrong;
        if !notices(&case, flags::compare) {
            missed.push(format!("flags: {name}"));
        }
    }
    missed
}

fn notices(case: &Case, compare: fn(&Case, &mut Tally)) -> bool {
    let mut tally = Tally::default();
    compare(case, &mut tally);
    tally.differences > 0
}

pub fn rules() -> usize {
    WRONG_STATES.len() + WRONG_BITS.len()
}
