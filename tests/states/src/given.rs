//! A state that is handed to a call: refused with 12 or 13, or stored.
use crate::case::Case;
use crate::library::{Answer, Set, DONE, END, OWNED, REFUSED, START};
use crate::tally::Tally;

pub fn compare(case: &Case, tally: &mut Tally) {
    let mut set = Set::new(1, 1, 1);
    for given in 0..=u16::MAX {
        let state = u32::from(given);
        set.open_scope(case.flags);
        let got = seen(set.merge_single(None, given), &set, START);
        tally.compare(state, got, wanted(case, state), case.flags, || "merge_single: kind, refusal, owned, state".into());
        set.open_tracker(case.flags);
        let answer = set.set_single(given);
        for (half, name) in [(START, "start"), (END, "end")] {
            let got = seen(answer, &set, half);
            tally.compare(state, got, wanted(case, state), case.flags, || format!("set_single: kind, refusal, owned, state at the {name}"));
        }
    }
}

fn seen(answer: Answer, set: &Set, half: usize) -> (u32, u32, bool, u32) {
    (answer.kind, answer.number, set.table[OWNED] != 0, set.table[half])
}

fn wanted(case: &Case, state: u32) -> (u32, u32, bool, u32) {
    let as_opened = case.flags.uninitialized;
    if case.reserved(state) {
        (REFUSED, 12, false, as_opened)
    } else if case.invalid(state) {
        (REFUSED, 13, false, as_opened)
    } else {
        (DONE, 0, true, state)
    }
}
