//! Usage flags: which of them a set can be opened with, and have.
use crate::case::{numbers, Case, Flags};
use crate::library::{Set, DONE, FLAGS, REFUSED};
use crate::tally::Tally;

const NAMES: [&str; 4] = ["EXCLUSIVE", "UNINITIALIZED", "COMPLEX", "UNKNOWN"];

/// Each flag in turn is every number, while the others stay.
pub fn compare(case: &Case, tally: &mut Tally) {
    let mut opened = Set::new(1, 1, 1);
    for (k, name) in NAMES.into_iter().enumerate() {
        let mut changed = Set::tracker(1, 1, 1, case.flags);
        let mut words = case.flags.words();
        for number in numbers() {
            words[k] = number;
            changed.table[FLAGS + k] = number;
            look(&mut opened, &changed, case, (name, number, Flags::of(words)), tally);
        }
    }
}

/// Opens a set with these flags, and looks at one that was opened with others and has these now.
fn look(opened: &mut Set, changed: &Set, case: &Case, (name, number, flags): (&str, u32, Flags), tally: &mut Tally) {
    let fit = case.flags_fit(flags);
    let wanted = if fit { (DONE, 0) } else { (REFUSED, 2) };
    let scope = opened.open_scope(flags);
    tally.compare(number, (scope.kind, scope.number), wanted, flags, || format!("open_scope, {name}: kind, refusal"));
    let tracker = opened.open_tracker(flags);
    tally.compare(number, (tracker.kind, tracker.number), wanted, flags, || format!("open_tracker, {name}: kind, refusal"));
    tally.compare(number, changed.is_scope(), fit, flags, || format!("a scope's {name}: well formed"));
    tally.compare(number, changed.is_tracker(), fit, flags, || format!("a tracker's {name}: well formed"));
}
