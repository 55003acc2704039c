//! A state that is merged with another one: a conflict, or their union.
use crate::case::{bits, Case};
use crate::library::{Answer, Set, CONFLICT, COUNTS, DONE, START};
use crate::tally::Tally;

pub fn compare(case: &Case, tally: &mut Tally) {
    let (shared, unknown) = (case.shared(), case.flags.unknown);
    let mut olds = vec![case.flags.uninitialized, shared];
    for several in [shared, case.flags.exclusive] {
        olds.extend(bits(several).next().into_iter().chain(bits(several).next_back()));
    }
    olds.sort_unstable();
    olds.dedup();
    for &old in &olds {
        whole(case, old, tally);
        range(case, old, tally);
    }
    range(case, unknown, tally);
    if !case.invalid(shared | unknown) {
        range(case, shared | unknown, tally);
    }
}

fn whole(case: &Case, old: u32, tally: &mut Tally) {
    let mut set = Set::new(1, 1, 1);
    set.open_scope(case.flags);
    set.own(0, 1, old);
    for &new in &case.accepted {
        set.table[START] = old;
        let answer = set.merge_single(None, new);
        let new = u32::from(new);
        let got = seen(answer, set.table[START]);
        tally.compare(new, got, wanted(case, old, new, old | new), case.flags, || place("a texture", old));
    }
}

/// One layer of a texture in ranges. What stands beside it is UNKNOWN, which is joined with no union.
fn range(case: &Case, old: u32, tally: &mut Tally) {
    let mut set = Set::new(1, 1, 4);
    let unknown = case.flags.unknown;
    set.open_scope(case.flags);
    set.own(0, 4, case.flags.complex);
    for &new in &case.accepted {
        set.table[START + COUNTS] = 3;
        set.starts[..9].copy_from_slice(&[0, 1, unknown, 1, 2, old, 2, 4, unknown]);
        let answer = set.merge_single(Some(1), new);
        let new = u32::from(new);
        let got = (seen(answer, set.starts[5]), set.table[START + COUNTS], [set.starts[3], set.starts[4]]);
        let wanted = (wanted(case, old, new, (old | new) & !unknown), 3, [1, 2]);
        tally.compare(new, got, wanted, case.flags, || place("a layer of a texture in ranges", old));
    }
}

fn seen(answer: Answer, stored: u32) -> [u32; 5] {
    [answer.kind, answer.number, answer.old_state, answer.new_state, stored]
}

fn wanted(case: &Case, old: u32, new: u32, union: u32) -> [u32; 5] {
    if case.invalid(union) {
        [CONFLICT, 0, old, new, old]
    } else {
        [DONE, 0, 0, 0, union]
    }
}

fn place(held: &str, old: u32) -> String {
    format!("merged into {held} that is in {old:#x}: kind, refusal, old and new of a conflict, state")
}
