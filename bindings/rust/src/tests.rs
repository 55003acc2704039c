//! What only this crate can try, since only it reaches the storage: refusals leave every number as it was, damaged
//! storage is refused and can still be read.
use crate::{
    errors::{merged, merged_part, passed, passed_part},
    merge_logs,
    storage::{self, LogStorage, Opening, ScopeStorage, TrackerStorage, ENTRY, USE},
    sys, uses, Extent, Layer, Mip, Plan, Refusal, Selector, State, Texture, TextureStates, TextureTracker,
    TrackerIndex, TransitionLog, UsageScope, Use,
};
use std::{format, string::ToString, vec, vec::Vec};

const EXTENT: Extent = Extent::new(2, 4);
const TEXTURE: Texture = Texture::new(TrackerIndex(0), EXTENT);
const OPENING: Opening = Opening { textures: 1, largest: EXTENT, flags: uses::FLAGS, ordered: uses::ORDERED };

fn scope() -> UsageScope {
    let mut scope = UsageScope::open(1, EXTENT, uses::FLAGS).unwrap();
    let part = Selector::one(Mip(0), Layer(1));
    scope.merge_single(TEXTURE, Some(part), uses::COPY_DST).unwrap();
    scope
}

fn tracker() -> (TextureTracker, TransitionLog) {
    let mut tracker = TextureTracker::open(1, EXTENT, uses::FLAGS, uses::ORDERED).unwrap();
    let mut log = TransitionLog::with_capacity(1);
    tracker.set_from_usage_scope(&scope(), &mut log).unwrap();
    (tracker, log)
}

fn numbers_of_scope(scope: &UsageScope) -> Vec<u32> {
    let ScopeStorage { table, ranges, .. } = &scope.storage;
    [&table[..], ranges].concat()
}

fn numbers_of_tracker(tracker: &TextureTracker, log: &TransitionLog) -> (Vec<u32>, usize, usize) {
    let TrackerStorage { table, starts, ends, .. } = &tracker.storage;
    let LogStorage { entries, written, free } = &log.storage;
    ([&table[..], starts, ends, entries].concat(), *written, *free)
}

/// Of 16 to 19, one each.
fn bad_parts() -> [Selector; 4] {
    [
        Selector::new(Mip(1)..Mip(1), Layer(0)..Layer(4)),
        Selector::new(Mip(1)..Mip(0), Layer(0)..Layer(4)),
        Selector::new(Mip(0)..Mip(2), Layer(2)..Layer(2)),
        Selector::new(Mip(0)..Mip(2), Layer(3)..Layer(2)),
    ]
}

#[test]
fn a_refusal_changes_no_number() {
    let mut scope = scope();
    let before = numbers_of_scope(&scope);
    for state in [State(0), uses::UNKNOWN, uses::COPY_DST | uses::RESOURCE] {
        assert!(scope.merge_single(TEXTURE, None, state).is_err());
        assert_eq!(numbers_of_scope(&scope), before);
    }
    for part in bad_parts() {
        assert!(scope.merge_single(TEXTURE, Some(part), uses::RESOURCE).is_err());
        assert_eq!(numbers_of_scope(&scope), before);
    }
    let (mut tracker, mut log) = tracker();
    tracker.set_single(TEXTURE, EXTENT.full_range(), uses::RESOURCE, &mut log).unwrap();
    let before = numbers_of_tracker(&tracker, &log);
    for part in bad_parts() {
        assert!(tracker.set_single(TEXTURE, part, uses::RESOURCE, &mut log).is_err());
        assert_eq!(numbers_of_tracker(&tracker, &log), before);
    }
    let answer = tracker.set_single(TEXTURE, EXTENT.full_range(), uses::COPY_DST, &mut log);
    assert_eq!(answer, Err(Refusal::NoFreeEntry));
    assert_eq!(numbers_of_tracker(&tracker, &log), before);
}

#[test]
fn short_room_3() {
    let mut short = ScopeStorage::new(OPENING);
    short.ranges.pop();
    let answer = passed(sys::open_scope(&mut short));
    assert_eq!(answer, Err(Refusal::ShortRoom));
    let mut short = TrackerStorage::new(OPENING);
    short.ends.pop();
    let answer = passed(sys::open_tracker(&mut short));
    assert_eq!(answer, Err(Refusal::ShortRoom));
}

#[test]
fn damaged_storage_4() {
    let (mut tracker, mut log) = tracker();
    let mut scope = scope();
    scope.storage.ranges[1] = 0;
    assert!(!scope.is_well_formed());
    let answer = scope.merge_single(TEXTURE, None, uses::RESOURCE);
    assert_eq!(answer, Err(Refusal::NotWellFormed.into()));
    assert_eq!(tracker.set_from_usage_scope(&scope, &mut log), Err(Refusal::NotWellFormed));
    tracker.storage.table[0] = 65;
    assert!(!tracker.is_well_formed());
    let answer = tracker.set_single(TEXTURE, EXTENT.full_range(), uses::RESOURCE, &mut log);
    assert_eq!(answer, Err(Refusal::NotWellFormed));
    scope.clear();
    tracker.clear();
    assert!(scope.is_well_formed() && tracker.is_well_formed(), "opened anew, whatever the table held");
}

#[test]
fn a_head_past_the_log_5() {
    let (mut tracker, mut log) = tracker();
    log.storage.free = usize::MAX;
    let answer = tracker.set_single(TEXTURE, EXTENT.full_range(), uses::RESOURCE, &mut log);
    assert_eq!(answer, Err(Refusal::LogTooShort));
    log.clear();
    assert_eq!((log.len(), log.free()), (0, 1), "the entries tell how many are free");
}

#[test]
fn every_number_is_decoded() {
    let part = Selector::new(Mip(5)..Mip(4), Layer(3)..Layer(2));
    for number in 1..=99 {
        let answer = sys::Answer { kind: 1, number, place: 7, ..Default::default() };
        let refusal = passed_part(answer, part).unwrap_err();
        assert_eq!(refusal.number(), number);
        assert_eq!(refusal.index(), (7..=9).contains(&number).then_some(TrackerIndex(7)));
        assert!(refusal.to_string().ends_with(&format!("(refusal {number})")));
        assert_eq!(merged_part(answer, part), Err(refusal.into()));
        // A call without a part is not refused for one.
        let without = if (16..=19).contains(&number) { Refusal::Unlisted(number) } else { refusal };
        assert_eq!((passed(answer), merged(answer)), (Err(without), Err(without.into())));
        // 10 is reserved, and 26 to 30 are no refusals.
        let listed = number != 10 && number <= 25 || number == 31;
        assert_eq!(refusal == Refusal::Unlisted(number), !listed, "{number}");
    }
}

/// 16 to 19 have what was given, whatever it is.
#[test]
fn the_part_is_handed_on() {
    let part = Selector::new(Mip(5)..Mip(4), Layer(3)..Layer(2));
    let told = |number| {
        let answer = sys::Answer { kind: 1, number, ..Default::default() };
        passed_part(answer, part).unwrap_err()
    };
    assert_eq!([16, 17].map(told), [Refusal::MipsEmpty(part.mips), Refusal::MipsReversed(part.mips)]);
    assert_eq!([18, 19].map(told), [Refusal::LayersEmpty(part.layers), Refusal::LayersReversed(part.layers)]);
}

/// A log with these numbers written, and as many entries more free.
fn written(numbers: &[u32], free: usize) -> TransitionLog {
    let mut storage = LogStorage::new(numbers.len() / ENTRY + free);
    storage.entries[..numbers.len()].copy_from_slice(numbers);
    (storage.written, storage.free) = (numbers.len() / ENTRY, free);
    TransitionLog { storage }
}

/// A log with an entry for each index.
fn log_of(indices: &[u32], free: usize) -> TransitionLog {
    let entries = indices.iter().zip(1..).map(|(&index, at)| [index, 0, at, 0, at, 1, 2]);
    written(&entries.flatten().collect::<Vec<_>>(), free)
}

/// The rest is memory of the log that it is of: it lies in what is written there, and ends with it.
#[test]
fn the_rest_is_not_copied() {
    let addresses = |log: &TransitionLog| {
        let start = log.storage.entries.as_ptr();
        start..start.wrapping_add(ENTRY * log.storage.written)
    };
    for (first, second, left) in [
        (&[0, 3, 5, 8][..], &[1, 4][..], [2, 0]),
        (&[1, 4], &[0, 3, 5, 8], [0, 2]),
        (&[2, 2], &[2, 2], [0, 2]),
        (&[2, 2, 3], &[2, 2], [1, 0]),
        (&[7], &[], [1, 0]),
        (&[], &[7], [0, 1]),
        (&[], &[], [0, 0]),
    ] {
        let logs = [log_of(first, 2), log_of(second, 3)];
        let mut out = log_of(&[9, 1], 9);
        let rest = merge_logs(&logs[0], &logs[1], &mut out).unwrap();
        let of = usize::from(left[0] == 0);
        let (whole, part) = (addresses(&logs[of]), rest.numbers().as_ptr_range());
        assert!(whole.start <= part.start && part.end == whole.end, "{first:?} {second:?}");
        assert_eq!(rest.len(), left[of], "{first:?} {second:?}");
        assert_eq!(rest.numbers(), &logs[of].storage.told()[ENTRY * (logs[of].len() - left[of])..]);
    }
}

#[test]
fn a_refused_merge_of_logs_changes_no_number() {
    let [up, down] = [log_of(&[1, 3], 0), log_of(&[2, 9, 8], 0)];
    for (first, second, free, refusal) in [
        (&up, &down, 4, Refusal::LogOutOfOrder),
        (&down, &up, 0, Refusal::LogOutOfOrder),
        (&up, &up, 2, Refusal::NoFreeEntry),
    ] {
        let mut out = log_of(&[9, 1], free);
        let before = (out.storage.entries.clone(), 2, free);
        assert_eq!(merge_logs(first, second, &mut out), Err(refusal));
        assert_eq!((out.storage.entries, out.storage.written, out.storage.free), before);
    }
    let mut damaged = log_of(&[1], 4);
    damaged.storage.free = usize::MAX;
    assert_eq!(merge_logs(&down, &up, &mut damaged), Err(Refusal::LogTooShort), "before 31");
}

/// Two uses in a group, and behind them an empty group in it.
fn plan() -> Plan {
    let mut plan = Plan::new();
    plan.open_group();
    plan.push(Use::whole(TEXTURE, uses::RESOURCE)).unwrap();
    plan.push(Use::new(TEXTURE, Selector::one(Mip(1), Layer(3)), uses::COPY_DST)).unwrap();
    plan.open_group();
    plan.close_group();
    plan.close_group();
    plan
}

/// With less room than a call on plans needs it is 15 and writes nothing; with more, nothing past what it counts.
fn room<T: Copy + PartialEq + std::fmt::Debug>(whole: &[T], other: T, call: impl Fn(&mut [T]) -> sys::CountedAnswer) {
    for length in 0..whole.len() + 2 {
        let mut borrowed = vec![other; length];
        let answer = passed(call(&mut borrowed).answer);
        let (passes, written) =
            if length < whole.len() { (Err(Refusal::NoFreeEntry), 0) } else { (Ok(()), whole.len()) };
        assert_eq!((answer, &borrowed[..written]), (passes, &whole[..written]), "{length}");
        assert!(borrowed[written..].iter().all(|one| *one == other), "{length}");
    }
}

#[test]
fn room_for_plans_15() {
    let plan = plan();
    let file = plan.write().unwrap();
    let uses: Vec<_> = plan.uses().flat_map(storage::numbers).collect();
    assert_eq!((plan.len(), file.len(), uses.len()), (6, 3 + 18 + 18 + 3, 2 * USE));
    room(&plan.items, [170; 16], |items| sys::read_plan(&file, items));
    room(&file, 170, |file| sys::write_plan(&plan.items, file));
    room(&uses, 170, |uses| sys::plan_uses(&plan.items, uses));
}

/// The room that reading and writing take is enough also where every three bytes make two items, and every item 18 bytes.
#[test]
fn plans_that_need_all_the_room() {
    let (mut empty_groups, mut flat) = (Plan::new(), Plan::new());
    for _ in 0..9 {
        empty_groups.open_group();
        empty_groups.close_group();
        flat.push(Use::whole(TEXTURE, uses::RESOURCE)).unwrap();
    }
    for plan in [empty_groups, flat, Plan::new()] {
        let file = plan.write().unwrap();
        assert_eq!(Plan::read(&file), Ok(plan));
    }
}

/// Behind the kind of an opened or closed item any bytes may stand. Another kind is 24, and no use.
#[test]
fn what_a_call_does_not_read_of_an_item() {
    let mut items = plan().items;
    items.iter_mut().filter(|item| item[0] != 2).for_each(|item| item[1..].fill(170));
    let mut file = plan().write().unwrap();
    let written = sys::write_plan(&items, &mut file);
    assert_eq!((passed(written.answer), written.count, Ok(file)), (Ok(()), 42, plan().write()));
    for kind in (0..=u8::MAX).filter(|kind| !(1..=3).contains(kind)) {
        items.push([kind; 16]);
        let refused = sys::write_plan(&items, &mut []);
        assert_eq!((passed(refused.answer), refused.count), (Err(Refusal::PlanUnbalanced), 0));
        assert_eq!(sys::plan_uses(&items, &mut [0; 2 * USE]).count, 2);
        items.pop();
    }
}

fn read(states: TextureStates<'_>) -> usize {
    let mips = (0..20).chain([u32::MAX]).map(Mip);
    let ranges = mips.map(|mip| states.ranges(mip).count() + usize::from(states.state(mip, Layer(3)).is_some()));
    ranges.sum::<usize>() + states.iter().take(1000).count()
}

/// Any numbers can be read, and any call on them returns.
#[test]
fn any_numbers() {
    let mut seed = 1u64;
    let mut next = move || {
        // Knuth's MMIX generator; the upper bits are the good ones.
        seed = seed.wrapping_mul(6_364_136_223_846_793_005).wrapping_add(1_442_695_040_888_963_407);
        let number = (seed >> 32) as u32;
        if number % 3 == 0 {
            number
        } else {
            number % 20
        }
    };
    let (mut tracker, mut log) = tracker();
    let mut scope = scope();
    for round in 0..300 {
        scope.storage.table.fill_with(&mut next);
        tracker.storage.table.fill_with(&mut next);
        log.storage.entries.fill_with(&mut next);
        log.storage.written = next() as usize;
        scope.owned().filter_map(|index| scope.states(index)).map(read).sum::<usize>();
        for index in tracker.owned() {
            tracker.start(index).into_iter().chain(tracker.end(index)).map(read).sum::<usize>();
        }
        assert!(log.iter().len() <= 1);
        let _ = merge_logs(&log, &log, &mut log.clone());
        if round % 50 == 0 {
            let _ = format!("{log:?}{scope:?}{tracker:?}");
            let grids = scope.owned().filter_map(|index| scope.states(index)).map(|states| states.grid(uses::name));
            grids.for_each(|grid| drop(grid.to_string()));
        }
        assert!(tracker.set_from_usage_scope(&scope, &mut log).is_err());
    }
}
