//! A state that a set holds of one range: whether the set is well formed.
use crate::case::{numbers, Case};
use crate::library::{Set, COUNTS, END, START};
use crate::tally::Tally;

/// How many ranges each of two mips has. There is room for more, where nonsense stands.
const RANGES: [usize; 2] = [3, 20];
const LAYERS: u32 = 20;
const ROOM: usize = 24;
/// A mip and a range of it: one in the middle, the first, the last.
const PLACES: [(usize, usize); 3] = [(1, 10), (0, 0), (1, 19)];

/// What the other ranges are in.
const COMPANY: [(&str, fn(&Case, usize) -> u32); 3] = [
    ("no exclusive state", |case, k| if k % 2 == 0 { case.shared() } else { case.flags.unknown }),
    ("one exclusive state", |case, _| case.exclusive(0)),
    ("several exclusive states", Case::exclusive),
];

pub fn compare(case: &Case, tally: &mut Tally) {
    for (name, state) in COMPANY {
        for &(mip, k) in &PLACES[..if case.thorough { 3 } else { 1 }] {
            look(&mut filled(case, state), case, name, (mip, k), tally);
        }
    }
    beside_ranges(case, tally);
}

/// A tracker with one texture, in ranges at the start and at the end: each of one layer, but that a mip's last one goes to the end.
fn filled(case: &Case, state: fn(&Case, usize) -> u32) -> Set {
    let mut set = Set::tracker(1, 2, ROOM as u32, case.flags);
    set.own(0, LAYERS, case.flags.complex);
    set.starts.fill(u32::MAX);
    for (mip, count) in RANGES.into_iter().enumerate() {
        for half in [START, END] {
            set.table[half + COUNTS + mip] = count as u32;
        }
        for k in 0..count {
            let end = if k + 1 == count { LAYERS } else { k as u32 + 1 };
            let at = 3 * (ROOM * mip + k);
            set.starts[at..at + 3].copy_from_slice(&[k as u32, end, state(case, k)]);
        }
    }
    set.ends.copy_from_slice(&set.starts);
    set
}

/// A range in every state. Start and end must be UNKNOWN at the same layers.
fn look(set: &mut Set, case: &Case, company: &str, (mip, k): (usize, usize), tally: &mut Tally) {
    let unknown = case.flags.unknown;
    let at = 3 * (ROOM * mip + k) + 2;
    let other = set.starts[at];
    for word in numbers() {
        let fits = case.range_fits(word);
        for (what, start, end) in [("start", word, other), ("end", other, word), ("start and end", word, word)] {
            set.starts[at] = start;
            set.ends[at] = end;
            let wanted = fits && (start == unknown) == (end == unknown);
            let place = || format!("a tracker's {what}, mip {mip}, range {k}, beside {company}: well formed");
            tally.compare(word, set.is_tracker(), wanted, case.flags, place);
        }
        let place = || format!("a scope's mip {mip}, range {k}, beside {company}: well formed");
        tally.compare(word, set.is_scope(), fits, case.flags, place);
    }
}

/// A tracker that has one half in ranges, none of them UNKNOWN, and the other in every state as a whole.
fn beside_ranges(case: &Case, tally: &mut Tally) {
    let complex = case.flags.complex;
    let mut set = filled(case, Case::exclusive);
    for word in numbers().filter(|&word| word != complex) {
        for (what, start, end) in [("start", word, complex), ("end", complex, word)] {
            set.table[START] = start;
            set.table[END] = end;
            let place = || format!("a tracker's {what} as a whole, the other half in ranges: well formed");
            tally.compare(word, set.is_tracker(), case.whole_fits(word), case.flags, place);
        }
    }
}
