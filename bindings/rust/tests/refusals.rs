//! Every refusal that the safe interface can be brought to give, with its place, and that it changes nothing.
//!
//! 3, 4 and 5 cannot arise: the crate provides enough memory, nobody else writes it, and the log keeps its own
//! head. 10 is reserved. 14 is of calls that are not in this crate.
#![allow(clippy::reversed_empty_ranges)] // they are refused
mod bench;
use bench::*;
use texture_tracker::*;

const ONE: Extent = Extent { mips: 1, layers: 1 };

/// What a merge is refused with. Nothing that can be read back has changed.
fn refused(scope: &mut UsageScope, texture: Texture, selector: Option<Selector>, state: u16) -> Refusal {
    let before = format!("{scope:?}");
    let answer = scope.merge_single(texture, selector, State(state));
    assert_eq!(format!("{scope:?}"), before);
    match answer {
        Err(MergeError::Refused(refusal)) => refusal,
        other => panic!("not refused: {other:?}"),
    }
}

/// The same merge, tried on a tracker: it is refused alike.
fn refused_by_both(texture: Texture, selector: Selector, state: u16) -> Refusal {
    let refusal = refused(&mut single(&[8]), texture, Some(selector), state);
    let (mut tracker, mut log) = (tracked(&[8]), log());
    let before = format!("{tracker:?}");
    assert_eq!(tracker.set_single(texture, selector, State(state), &mut log), Err(refusal));
    assert_eq!((format!("{tracker:?}"), log.len(), log.free()), (before, 0, 8));
    refusal
}

#[test]
fn opening_numbers_1() {
    let extent = |mips, layers| Extent { mips, layers };
    let most = u32::MAX;
    let sizes = [(0, ONE), (65, ONE), (most, ONE), (1, extent(0, 1)), (1, extent(17, 1)), (1, extent(1, 0))];
    for (n, largest) in sizes.into_iter().chain([(1, extent(1, 257)), (most, extent(most, most))]) {
        let scope = UsageScope::open(n, largest, FLAGS).unwrap_err();
        let tracker = TextureTracker::open(n, largest, FLAGS, MASK).unwrap_err();
        assert_eq!((scope, tracker), (Refusal::NumbersOutOfLimits, Refusal::NumbersOutOfLimits));
        assert_eq!((scope.number(), scope.index()), (1, None));
    }
}

#[test]
fn usage_flags_2() {
    let broken = [
        UsageFlags { uninitialized: State(0), ..FLAGS },
        UsageFlags { uninitialized: State(3), ..FLAGS },
        UsageFlags { complex: State(8192), ..FLAGS },
        UsageFlags { unknown: State(0), ..FLAGS },
        UsageFlags { exclusive: State(4096), ..FLAGS },
        UsageFlags { exclusive: State(u16::MAX), ..FLAGS },
    ];
    for flags in broken {
        assert_eq!(UsageScope::open(1, EXTENT, flags).unwrap_err(), Refusal::FlagsBreakRule);
        let refusal = TextureTracker::open(1, EXTENT, flags, MASK).unwrap_err();
        assert_eq!(refusal.number(), 2);
    }
}

#[test]
fn other_flags_6() {
    let flags = UsageFlags { exclusive: State(4), ..FLAGS };
    let mut other = UsageScope::open(1, EXTENT, flags).unwrap();
    let other_tracker = TextureTracker::open(1, EXTENT, flags, MASK).unwrap();
    let (mut tracker, mut log) = (tracked(&[8]), log());
    let refusal = Refusal::FlagsDiffer;
    assert_eq!(single(&[8]).merge_usage_scope(&other), Err(refusal.into()));
    assert_eq!(tracker.set_from_usage_scope(&other, &mut log), Err(refusal));
    assert_eq!(tracker.set_from_tracker(&other_tracker, &mut log), Err(refusal));
    let answer = tracker.set_and_remove_from_usage_scope_sparse(&mut other, &[], &mut log);
    assert_eq!(answer, Err(refusal));
    assert_eq!(refusal.number(), 6);
}

#[test]
fn index_7() {
    for index in [1, 64, u32::MAX] {
        let refusal = refused_by_both(texture(index, EXTENT), EXTENT.full_range(), 8);
        assert_eq!(refusal, Refusal::NoSuchIndex(TrackerIndex(index)));
        assert_eq!((refusal.number(), refusal.index()), (7, Some(TrackerIndex(index))));
    }
}

#[test]
fn extent_8() {
    for (mips, layers) in [(0, 4), (3, 4), (2, 0), (2, 5), (u32::MAX, u32::MAX)] {
        let extent = Extent { mips, layers };
        let refusal = refused_by_both(texture(0, extent), extent.full_range(), 8);
        assert_eq!(refusal, Refusal::ExtentOutOfLimits(TrackerIndex(0)));
        assert_eq!(refusal.number(), 8);
    }
}

#[test]
fn another_extent_9() {
    let refusal = refused_by_both(texture(0, ONE), ONE.full_range(), 8);
    assert_eq!((refusal, refusal.number()), (Refusal::ExtentDiffers(TrackerIndex(0)), 9));
}

fn mips(start: u32, end: u32) -> Span<Mip> {
    Span { start: Mip(start), end: Mip(end) }
}

fn layers(start: u32, end: u32) -> Span<Layer> {
    Span { start: Layer(start), end: Layer(end) }
}

/// Each by itself; with an end past the extent, which is 11, checked later; and with one another, where the first counts.
#[test]
fn selector_16_to_19() {
    let most = u32::MAX;
    let cases = [
        (1..1, 0..4, Refusal::MipsEmpty(mips(1, 1)), 16),
        (5..5, 0..4, Refusal::MipsEmpty(mips(5, 5)), 16),
        (1..1, 0..5, Refusal::MipsEmpty(mips(1, 1)), 16),
        (1..1, 2..2, Refusal::MipsEmpty(mips(1, 1)), 16),
        (1..1, 3..2, Refusal::MipsEmpty(mips(1, 1)), 16),
        (most..most, most..0, Refusal::MipsEmpty(mips(most, most)), 16),
        (1..0, 0..4, Refusal::MipsReversed(mips(1, 0)), 17),
        (5..3, 0..4, Refusal::MipsReversed(mips(5, 3)), 17),
        (1..0, 0..5, Refusal::MipsReversed(mips(1, 0)), 17),
        (1..0, 2..2, Refusal::MipsReversed(mips(1, 0)), 17),
        (1..0, 3..2, Refusal::MipsReversed(mips(1, 0)), 17),
        (most..0, most..most, Refusal::MipsReversed(mips(most, 0)), 17),
        (0..1, 2..2, Refusal::LayersEmpty(layers(2, 2)), 18),
        (0..1, 9..9, Refusal::LayersEmpty(layers(9, 9)), 18),
        (0..3, 2..2, Refusal::LayersEmpty(layers(2, 2)), 18),
        (0..most, most..most, Refusal::LayersEmpty(layers(most, most)), 18),
        (0..1, 3..2, Refusal::LayersReversed(layers(3, 2)), 19),
        (0..1, 9..5, Refusal::LayersReversed(layers(9, 5)), 19),
        (0..3, 3..2, Refusal::LayersReversed(layers(3, 2)), 19),
        (0..most, most..0, Refusal::LayersReversed(layers(most, 0)), 19),
    ];
    for (mips, layers, refusal, number) in cases {
        assert_eq!(refused_by_both(TEXTURE, selector(mips, layers), 8), refusal);
        assert_eq!((refusal.number(), refusal.index()), (number, None));
    }
    let last = Selector::one(Mip(most), Layer(most));
    assert_eq!(refused_by_both(TEXTURE, last, 8), Refusal::MipsEmpty(last.mips));
}

/// The checks before those of the selector, and after them.
#[test]
fn selector_between_9_and_12() {
    for (mips, layers, number) in [(1..1, 0..4, 16), (1..0, 0..4, 17), (0..1, 2..2, 18), (0..1, 3..2, 19)] {
        let part = selector(mips, layers);
        assert_eq!(refused_by_both(texture(0, ONE), part, 8), Refusal::ExtentDiffers(TrackerIndex(0)));
        assert_eq!(refused_by_both(TEXTURE, part, 0).number(), number);
        assert_eq!(refused_by_both(TEXTURE, part, 24).number(), number);
    }
}

#[test]
fn selector_11() {
    for (mips, layers) in [(0..1, 0..5), (0..3, 0..4), (2..3, 0..4), (0..u32::MAX, 0..u32::MAX)] {
        let refusal = refused_by_both(TEXTURE, selector(mips, layers), 8);
        assert_eq!((refusal, refusal.number()), (Refusal::SelectorPastExtent, 11));
    }
}

#[test]
fn state_12_and_13() {
    for state in [0, 4096, U, U | 8, u16::MAX] {
        let refusal = refused_by_both(TEXTURE, part(), state);
        assert_eq!((refusal, refusal.number()), (Refusal::StateReserved, 12));
        assert_eq!(refused(&mut scope(), TEXTURE, None, state), refusal);
    }
    for state in [24, 20, 5] {
        let refusal = refused_by_both(TEXTURE, part(), state);
        assert_eq!((refusal, refusal.number()), (Refusal::StateIncompatible, 13));
    }
}

#[test]
fn whole_sets_7_8_9() {
    let larger = Extent { mips: 3, layers: 4 };
    let cases = [
        (2, EXTENT, texture(1, EXTENT), Refusal::NoSuchIndex(TrackerIndex(1))),
        (1, larger, texture(0, larger), Refusal::ExtentOutOfLimits(TrackerIndex(0))),
        (1, EXTENT, texture(0, ONE), Refusal::ExtentDiffers(TrackerIndex(0))),
    ];
    for (n, largest, texture, refusal) in cases {
        let mut given = UsageScope::open(n, largest, FLAGS).unwrap();
        given.merge_single(texture, None, State(8)).unwrap();
        let (mut tracker, mut log) = (tracked(&[8]), log());
        let mut other = TextureTracker::open(n, largest, FLAGS, MASK).unwrap();
        other.set_from_usage_scope(&given, &mut log).unwrap();
        assert_eq!(single(&[8]).merge_usage_scope(&given), Err(refusal.into()));
        assert_eq!(tracker.set_from_usage_scope(&given, &mut log), Err(refusal));
        assert_eq!(tracker.set_from_tracker(&other, &mut log), Err(refusal));
        let list = [texture.index];
        let sparse = tracker.set_and_remove_from_usage_scope_sparse(&mut given, &list, &mut log);
        assert_eq!(sparse, Err(refusal));
        assert_eq!(given.owned().collect::<Vec<_>>(), list);
    }
}

#[test]
fn a_listed_index_that_the_scope_lacks_7() {
    let list = [TrackerIndex(0), TrackerIndex(1)];
    let (mut given, mut tracker, mut log) = (single(&[8]), tracker(), log());
    let answer = tracker.set_and_remove_from_usage_scope_sparse(&mut given, &list, &mut log);
    assert_eq!(answer, Err(Refusal::NoSuchIndex(TrackerIndex(1))));
    assert_eq!((of_scope(&given), tracker.owned().next()), ("8".to_string(), None));
}

/// The last free entry is used, and one more is 15.
#[test]
fn no_free_entry_15() {
    let mut tracker = tracked(&[4]);
    let mut log = TransitionLog::with_capacity(1);
    let mut none = TransitionLog::with_capacity(0);
    let refusal = Refusal::NoFreeEntry;
    assert_eq!(tracker.set_single(TEXTURE, part(), State(8), &mut none), Err(refusal));
    assert_eq!(tracker.set_from_usage_scope(&single(&[8]), &mut none), Err(refusal));
    assert_eq!(tracker.set_from_tracker(&tracked(&[8]), &mut none), Err(refusal));
    let (mut given, list) = (single(&[8]), [TrackerIndex(0)]);
    let sparse = tracker.set_and_remove_from_usage_scope_sparse(&mut given, &list, &mut none);
    assert_eq!((sparse, of_scope(&given)), (Err(refusal), "8".to_string()));
    assert_eq!(of_tracker(&tracker), ("4".to_string(), "4".to_string()));
    assert_eq!(tracker.set_single(TEXTURE, part(), State(8), &mut log), Ok(()));
    assert_eq!(tracker.set_single(TEXTURE, part(), State(4), &mut log), Err(refusal));
    assert_eq!((refusal.number(), log.len(), log.free()), (15, 1, 0));
}

/// A log whose indices descend is not merged, as the first and as the second, also where its own rest descends.
#[test]
fn a_log_that_descends_31() {
    let mut log = TransitionLog::with_capacity(3);
    let mut tracker = TextureTracker::open(3, ONE, FLAGS, State(0)).unwrap();
    for index in [0, 2, 1] {
        for state in [4, 16] {
            tracker.set_single(texture(index, ONE), ONE.full_range(), State(state), &mut log).unwrap();
        }
    }
    let (none, mut out) = (TransitionLog::with_capacity(0), TransitionLog::with_capacity(6));
    for (first, second) in [(&log, &none), (&none, &log), (&log, &log)] {
        let refusal = merge_logs(first, second, &mut out).unwrap_err();
        assert_eq!((refusal, refusal.number()), (Refusal::LogOutOfOrder, 31));
        assert_eq!(refusal.to_string(), "a log descends or stops inside an entry (refusal 31)");
        assert_eq!((out.len(), out.free()), (0, 6));
    }
}

/// Reading and writing a plan; `tests/plans.rs` has the edges.
#[test]
fn plans_20_to_25() {
    let beans = Use::whole(TEXTURE, State(8));
    let plan = |opened: usize, uses: usize, closed: usize| {
        let mut plan = Plan::new();
        (0..opened).for_each(|_| plan.open_group());
        (0..uses).for_each(|_| plan.push(beans).unwrap());
        (0..closed).for_each(|_| plan.close_group());
        plan
    };
    let deep = plan(8, 0, 8).write().unwrap();
    let deeper = [&[1, 24, 0], &deep[..]].concat();
    let read = |file: &[u8]| Plan::read(file).map(drop);
    let write = |plan: Plan| plan.write().map(drop);
    assert_eq!((read(&deep), write(plan(1, 3_640, 1))), (Ok(()), Ok(())));
    for (answer, refusal, number, words) in [
        (read(&[7, 1, 0]), Refusal::FieldCutShort, 20, "a field is cut short or goes past its group or the file"),
        (read(&[7, 0, 0]), Refusal::UnknownTag, 21, "a field has an unknown tag: 1 is a group, 2 is a use"),
        (read(&[2, 0, 0]), Refusal::UseOfWrongSize, 22, "a use does not have 15 bytes"),
        (read(&deeper), Refusal::GroupsTooDeep, 23, "groups stand more than eight deep"),
        (write(plan(9, 0, 9)), Refusal::GroupsTooDeep, 23, "groups stand more than eight deep"),
        (
            write(plan(0, 0, 1)),
            Refusal::PlanUnbalanced,
            24,
            "a group that is not open is closed, one is left open, or an item has an unknown kind",
        ),
        (write(plan(1, 3_641, 1)), Refusal::GroupTooLong, 25, "a group holds more than 65,535 bytes"),
    ] {
        assert_eq!((answer, refusal.number(), refusal.index()), (Err(refusal), number, None));
        assert!(refusal.to_string().ends_with(&format!(", {words} (refusal {number})")), "{refusal}");
    }
}

/// C says the same of plans, and of room that is short.
#[test]
fn words_of_c() {
    use Refusal::*;
    let header = concat!(env!("CARGO_MANIFEST_DIR"), "/../../include/texture_tracker.h");
    let header = std::fs::read_to_string(header).unwrap();
    for refusal in [FieldCutShort, UnknownTag, UseOfWrongSize, GroupsTooDeep, PlanUnbalanced, GroupTooLong, NoFreeEntry]
    {
        let said = refusal.to_string();
        let words = said.strip_suffix(&format!(" (refusal {})", refusal.number())).unwrap();
        assert!(header.contains(&format!(": return \"{words}\";")), "{words}");
    }
}

/// A log with room for the texture takes any one call, also in the worst case: every subresource by itself.
#[test]
fn a_log_with_room_is_never_short() {
    let (mut tracker, mut log) = (tracked(&[4]), log());
    for (mip, layer) in (0..8).map(|at| (Mip(at / 4), Layer(at % 4))) {
        let state = if (mip.0 + layer.0) % 2 == 0 { State(2) } else { State(8) };
        log.clear();
        tracker.set_single(TEXTURE, Selector::one(mip, layer), state, &mut log).unwrap();
    }
    log.clear();
    tracker.set_single(TEXTURE, EXTENT.full_range(), State(4), &mut log).unwrap();
    assert_eq!((log.len(), log.free()), (8, 0));
}

#[test]
fn the_words() {
    let words = Refusal::ExtentDiffers(TrackerIndex(3)).to_string();
    assert_eq!(words, "texture 3: the set holds it with another extent (refusal 9)");
    let error: Box<dyn std::error::Error> = Box::new(MergeError::from(Refusal::SelectorPastExtent));
    assert_eq!(error.to_string(), "the selector ends past the texture's extent (refusal 11)");
    assert!(error.source().is_some());
}

/// A bad selector is told with the start and the end of its span, and the end is not one of it: also not where it was
/// given with `..=`.
#[test]
fn the_words_of_16_to_19() {
    let words = |mips, layers| refused_by_both(TEXTURE, selector(mips, layers), 8).to_string();
    assert_eq!(words(1..1, 0..4), "mips 1 to 1 are empty: they end where they start (refusal 16)");
    assert_eq!(words(1..0, 0..4), "mips 1 to 0 are reversed: they end before they start (refusal 17)");
    assert_eq!(words(0..1, 2..2), "layers 2 to 2 are empty: they end where they start (refusal 18)");
    assert_eq!(words(0..1, 7..2), "layers 7 to 2 are reversed: they end before they start (refusal 19)");
    let inclusive = Selector::new(Mip(0), Layer(7)..=Layer(1));
    assert_eq!(inclusive, selector(0..1, 7..2));
}
