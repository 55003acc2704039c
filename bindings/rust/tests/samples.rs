//! The samples B1 to B12 of docs/RULES.md, and its edges.
mod bench;
use bench::*;
use texture_tracker::*;

#[test]
fn b1_whole_into_unowned() {
    assert_eq!(of_scope(&single(&[8])), "8");
}

#[test]
fn b2_reads_unite() {
    assert_eq!(of_scope(&single(&[8, 2])), "10");
}

#[test]
fn b3_an_exclusive_use_conflicts_and_nothing_changes() {
    let mut scope = single(&[8, 2]);
    let answer = scope.merge_single(TEXTURE, None, State(4));
    assert_eq!(answer, conflict(EXTENT.full_range(), 10, 4));
    assert_eq!(of_scope(&scope), "10");
}

#[test]
fn b4_part_of_an_unowned_texture() {
    assert_eq!(of_scope(&many(8)), "0..1 U, 1..3 8, 3..4 U; 0..4 U");
}

#[test]
fn b5_whole_after_part() {
    let mut scope = many(8);
    scope.merge_single(TEXTURE, None, State(2)).unwrap();
    assert_eq!(of_scope(&scope), "0..1 2, 1..3 10, 3..4 2; 0..4 2");
}

#[test]
fn b6_what_came_before_the_conflict_stays() {
    let mut scope = many(8);
    let answer = scope.merge_single(TEXTURE, None, State(4));
    assert_eq!(answer, conflict(part(), 8, 4));
    assert_eq!(of_scope(&scope), "0..1 4, 1..3 8, 3..4 U; 0..4 U");
}

#[test]
fn b7_unknown_is_left_beside_a_whole_state() {
    let mut scope = single(&[8]);
    scope.merge_usage_scope(&many(2)).unwrap();
    assert_eq!(of_scope(&scope), "0..1 8200, 1..3 10, 3..4 8200; 0..4 8200");
}

#[test]
fn b8_unknown_conflicts_with_an_exclusive_whole_state() {
    let mut scope = single(&[4]);
    let answer = scope.merge_usage_scope(&many(2));
    assert_eq!(answer, conflict(selector(0..1, 0..1), 4, U));
    assert_eq!(of_scope(&scope), "4");
}

#[test]
fn b9_part_of_a_whole_texture_moves() {
    let (mut tracker, mut log) = (tracked(&[4]), log());
    tracker.set_single(TEXTURE, part(), State(8), &mut log).unwrap();
    assert_eq!(log.iter().collect::<Vec<_>>(), [transition(part(), 4, 8)]);
    let end = "0..1 4, 1..3 8, 3..4 4; 0..4 4".to_string();
    assert_eq!(of_tracker(&tracker), ("4".to_string(), end));
}

#[test]
fn b10_equal_states_are_skipped_only_if_ordered() {
    for (state, entries) in [(4, 1), (8, 0)] {
        let (mut tracker, mut log) = (tracked(&[state]), log());
        tracker.set_single(TEXTURE, EXTENT.full_range(), State(state), &mut log).unwrap();
        let expected = vec![transition(EXTENT.full_range(), state, state); entries];
        assert_eq!(log.iter().collect::<Vec<_>>(), expected);
    }
}

#[test]
fn b11_the_start_learns_where_nothing_was_known() {
    let (mut tracker, mut log) = (tracker(), log());
    tracker.set_single(TEXTURE, part(), State(8), &mut log).unwrap();
    assert!(log.is_empty());
    tracker.set_single(TEXTURE, EXTENT.full_range(), State(4), &mut log).unwrap();
    assert_eq!(log.iter().collect::<Vec<_>>(), [transition(part(), 8, 4)]);
    let start = "0..1 4, 1..3 8, 3..4 4; 0..4 4".to_string();
    assert_eq!(of_tracker(&tracker), (start, "4".to_string()));
}

#[test]
fn b12_a_join_goes_to_the_other_start_and_takes_its_end() {
    let (mut one, mut log) = (tracker(), log());
    one.set_from_usage_scope(&many(8), &mut log).unwrap();
    one.set_from_tracker(&tracked(&[2, 8]), &mut log).unwrap();
    assert_eq!(log.iter().collect::<Vec<_>>(), [transition(part(), 8, 2)]);
    assert_eq!(of_tracker(&one), ("0..4 8; 0..4 8".to_string(), "8".to_string()));
}

#[test]
fn edges_that_pass() {
    assert!(UsageScope::open(64, Extent { mips: 16, layers: 256 }, FLAGS).is_ok());
    let mut scope = scope();
    assert_eq!(scope.merge_single(TEXTURE, Some(selector(0..1, 2..4)), State(16)), Ok(()));
    assert_eq!(of_scope(&scope), "0..2 U, 2..4 16; 0..4 U");
}

#[test]
fn a_sparse_call_takes_the_listed_textures_out_of_the_scope() {
    let one = Extent { mips: 1, layers: 1 };
    let mut scope = UsageScope::open(3, one, FLAGS).unwrap();
    let mut tracker = TextureTracker::open(3, one, FLAGS, MASK).unwrap();
    let mut log = TransitionLog::with_room_for(3, one);
    for index in [0, 2] {
        scope.merge_single(texture(index, one), None, State(8)).unwrap();
        tracker.set_single(texture(index, one), one.full_range(), State(2), &mut log).unwrap();
    }
    let list = [2, 1, 0, 2].map(TrackerIndex);
    tracker.set_and_remove_from_usage_scope_sparse(&mut scope, &list[..2], &mut log).unwrap();
    assert_eq!(scope.owned().collect::<Vec<_>>(), [TrackerIndex(0)]);
    tracker.set_and_remove_from_usage_scope_sparse(&mut scope, &list, &mut log).unwrap();
    assert_eq!(scope.owned().next(), None);
    let moved: Vec<_> = log.drain_transitions().map(|each| each.index.0).collect();
    assert_eq!(moved, [2, 0]);
    assert_eq!((log.len(), log.free()), (0, 3));
}

#[test]
fn clearing_opens_again() {
    let mut scope = many(8);
    scope.clear();
    assert_eq!((of_scope(&scope), scope.flags()), ("unowned".to_string(), FLAGS));
    let mut tracker = tracked(&[8]);
    tracker.clear();
    assert_eq!((tracker.owned().next(), tracker.ordered()), (None, MASK));
    assert!(scope.is_well_formed() && tracker.is_well_formed());
}
