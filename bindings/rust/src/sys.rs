//! The proved library: its functions as the archive has them, and for each one caller that passes it storage.
//!
//! A slice goes over as a pointer and a count of numbers, a plan's files and items as a pointer and a count of bytes, a
//! table as a pointer to 2,376 numbers. The library requires nothing else of its caller: it is proved that every call
//! ends, stays inside what it borrows, and returns whatever numbers stand there. So all that each SAFETY below has to
//! say is that the pointers are good for their lengths and that what is written is borrowed by nobody else; references
//! say both.
//!
//! One line of arguments for each thing that is borrowed; rustfmt is told to leave this file alone.
#![allow(unsafe_code)]
use crate::{
    state::State,
    storage::{Item, LogStorage, Opening, ScopeStorage, TrackerStorage},
    values::{Selector, Texture, TrackerIndex},
};

/// What a call returns. `kind` is 0 for done, 1 for refused (`number` and `place`), 2 for a conflict (the others).
#[repr(C)]
#[derive(Clone, Copy, Debug, Default)]
pub(crate) struct Answer {
    pub kind: u32,
    pub number: u32,
    pub place: u32,
    pub index: u32,
    pub mip_start: u32,
    pub mip_end: u32,
    pub layer_start: u32,
    pub layer_end: u32,
    pub old_state: u32,
    pub new_state: u32,
}

/// What a call that borrows a log returns, with the log's head after it.
#[repr(C)]
#[derive(Clone, Copy)]
struct LoggedAnswer {
    answer: Answer,
    written: usize,
    free: usize,
}

/// What a merge of two logs returns, with the third log's head after it. The rest is `rest_length` numbers from number
/// `rest_offset` on, of the first log where `rest_first` is 1, of the second where it is 0.
#[repr(C)]
#[derive(Clone, Copy)]
struct MergedAnswer {
    answer: Answer,
    written: usize,
    free: usize,
    rest_first: u32,
    rest_offset: usize,
    rest_length: usize,
}

/// What a call on plans returns, with how many items, bytes or uses it wrote: 0 where it is refused.
#[repr(C)]
#[derive(Clone, Copy)]
pub(crate) struct CountedAnswer {
    pub answer: Answer,
    pub count: usize,
}

extern "C" {
    fn track_open_scope(
        table: *mut u32, ranges: *const u32, ranges_len: usize,
        n: u32, m: u32, w: u32, exclusive: u32, uninitialized: u32, complex: u32, unknown: u32,
    ) -> Answer;

    fn track_open_tracker(
        table: *mut u32, starts: *const u32, starts_len: usize, ends: *const u32, ends_len: usize,
        n: u32, m: u32, w: u32, exclusive: u32, uninitialized: u32, complex: u32, unknown: u32, mask: u16,
    ) -> Answer;

    fn track_merge_single(
        table: *mut u32, ranges: *mut u32, ranges_len: usize, index: u32, mips: u32, layers: u32,
        part: u32, mip_start: u32, mip_end: u32, layer_start: u32, layer_end: u32, state: u16,
    ) -> Answer;

    fn track_merge_usage_scope(
        table: *mut u32, ranges: *mut u32, ranges_len: usize,
        given: *const u32, lent: *const u32, lent_len: usize,
    ) -> Answer;

    fn track_set_single(
        table: *mut u32, starts: *mut u32, starts_len: usize, ends: *mut u32, ends_len: usize,
        index: u32, mips: u32, layers: u32,
        mip_start: u32, mip_end: u32, layer_start: u32, layer_end: u32, state: u16,
        log: *mut u32, log_len: usize, written: usize, free: usize,
    ) -> LoggedAnswer;

    fn track_set_from_usage_scope(
        table: *mut u32, starts: *mut u32, starts_len: usize, ends: *mut u32, ends_len: usize,
        given: *const u32, lent: *const u32, lent_len: usize,
        log: *mut u32, log_len: usize, written: usize, free: usize,
    ) -> LoggedAnswer;

    fn track_set_from_tracker(
        table: *mut u32, starts: *mut u32, starts_len: usize, ends: *mut u32, ends_len: usize,
        given: *const u32, first: *const u32, first_len: usize, last: *const u32, last_len: usize,
        log: *mut u32, log_len: usize, written: usize, free: usize,
    ) -> LoggedAnswer;

    fn track_set_and_remove_from_usage_scope_sparse(
        table: *mut u32, starts: *mut u32, starts_len: usize, ends: *mut u32, ends_len: usize,
        given: *mut u32, lent: *const u32, lent_len: usize, indices: *const u32, indices_len: usize,
        log: *mut u32, log_len: usize, written: usize, free: usize,
    ) -> LoggedAnswer;

    fn track_empty_log(log: *const u32, log_len: usize, written: usize, free: usize) -> LoggedAnswer;

    fn track_merge_logs(
        first: *const u32, first_len: usize, second: *const u32, second_len: usize,
        third: *mut u32, third_len: usize, written: usize, free: usize,
    ) -> MergedAnswer;

    fn track_read_plan(file: *const u8, file_len: usize, items: *mut u8, items_len: usize) -> CountedAnswer;

    fn track_write_plan(items: *const u8, items_len: usize, file: *mut u8, file_len: usize) -> CountedAnswer;

    fn track_plan_uses(items: *const u8, items_len: usize, uses: *mut u32, uses_len: usize) -> CountedAnswer;

    fn track_scope_is_well_formed(table: *const u32, ranges: *const u32, ranges_len: usize) -> u32;

    fn track_tracker_is_well_formed(
        table: *const u32, starts: *const u32, starts_len: usize, ends: *const u32, ends_len: usize,
    ) -> u32;
}

/// Takes over the head that a call leaves.
fn logged(log: &mut LogStorage, after: LoggedAnswer) -> Answer {
    log.written = after.written;
    log.free = after.free;
    after.answer
}

fn ends_of(selector: Selector) -> [u32; 4] {
    let Selector { mips, layers } = selector;
    [mips.start.0, mips.end.0, layers.start.0, layers.end.0]
}

/// N, M, W and the usage flags.
fn numbers(opening: Opening) -> [u32; 7] {
    let Opening { textures, largest, flags, .. } = opening;
    let [exclusive, uninitialized, complex, unknown] =
        [flags.exclusive, flags.uninitialized, flags.complex, flags.unknown].map(|state| state.0.into());
    [textures, largest.mips, largest.layers, exclusive, uninitialized, complex, unknown]
}

pub(crate) fn open_scope(to: &mut ScopeStorage) -> Answer {
    let ScopeStorage { opening, table, ranges } = to;
    let [n, m, w, exclusive, uninitialized, complex, unknown] = numbers(*opening);
    // SAFETY: each pointer comes from a reference, with its length; the table is borrowed mutably and alone.
    unsafe {
        track_open_scope(
            table.as_mut_ptr(), ranges.as_ptr(), ranges.len(),
            n, m, w, exclusive, uninitialized, complex, unknown,
        )
    }
}

pub(crate) fn open_tracker(to: &mut TrackerStorage) -> Answer {
    let TrackerStorage { opening, table, starts, ends } = to;
    let [n, m, w, exclusive, uninitialized, complex, unknown] = numbers(*opening);
    // SAFETY: each pointer comes from a reference, with its length; the table is borrowed mutably and alone.
    unsafe {
        track_open_tracker(
            table.as_mut_ptr(), starts.as_ptr(), starts.len(), ends.as_ptr(), ends.len(),
            n, m, w, exclusive, uninitialized, complex, unknown, opening.ordered.0,
        )
    }
}

pub(crate) fn merge_single(
    to: &mut ScopeStorage, texture: Texture, selector: Option<Selector>, state: State,
) -> Answer {
    let ScopeStorage { table, ranges, .. } = to;
    let Texture { index, extent } = texture;
    let [mip_start, mip_end, layer_start, layer_end] = selector.map_or([0; 4], ends_of);
    // SAFETY: each pointer comes from a mutable reference, with its length; the two are separate allocations.
    unsafe {
        track_merge_single(
            table.as_mut_ptr(), ranges.as_mut_ptr(), ranges.len(), index.0, extent.mips, extent.layers,
            selector.is_some().into(), mip_start, mip_end, layer_start, layer_end, state.0,
        )
    }
}

pub(crate) fn merge_usage_scope(to: &mut ScopeStorage, given: &ScopeStorage) -> Answer {
    let ScopeStorage { table, ranges, .. } = to;
    // SAFETY: each pointer comes from a reference, with its length; `to` is borrowed mutably, so `given` is another.
    unsafe {
        track_merge_usage_scope(
            table.as_mut_ptr(), ranges.as_mut_ptr(), ranges.len(),
            given.table.as_ptr(), given.ranges.as_ptr(), given.ranges.len(),
        )
    }
}

pub(crate) fn set_single(
    to: &mut TrackerStorage, texture: Texture, selector: Selector, state: State, log: &mut LogStorage,
) -> Answer {
    let TrackerStorage { table, starts, ends, .. } = to;
    let Texture { index, extent } = texture;
    let [mip_start, mip_end, layer_start, layer_end] = ends_of(selector);
    // SAFETY: each pointer comes from a mutable reference, with its length; all are separate allocations.
    let after = unsafe {
        track_set_single(
            table.as_mut_ptr(), starts.as_mut_ptr(), starts.len(), ends.as_mut_ptr(), ends.len(),
            index.0, extent.mips, extent.layers,
            mip_start, mip_end, layer_start, layer_end, state.0,
            log.entries.as_mut_ptr(), log.entries.len(), log.written, log.free,
        )
    };
    logged(log, after)
}

pub(crate) fn set_from_usage_scope(to: &mut TrackerStorage, given: &ScopeStorage, log: &mut LogStorage) -> Answer {
    let TrackerStorage { table, starts, ends, .. } = to;
    // SAFETY: each pointer comes from a reference, with its length; what is written is borrowed mutably.
    let after = unsafe {
        track_set_from_usage_scope(
            table.as_mut_ptr(), starts.as_mut_ptr(), starts.len(), ends.as_mut_ptr(), ends.len(),
            given.table.as_ptr(), given.ranges.as_ptr(), given.ranges.len(),
            log.entries.as_mut_ptr(), log.entries.len(), log.written, log.free,
        )
    };
    logged(log, after)
}

pub(crate) fn set_from_tracker(to: &mut TrackerStorage, given: &TrackerStorage, log: &mut LogStorage) -> Answer {
    let TrackerStorage { table, starts, ends, .. } = to;
    let TrackerStorage { table: other, starts: first, ends: last, .. } = given;
    // SAFETY: each pointer comes from a reference, with its length; `to` is borrowed mutably, so `given` is another.
    let after = unsafe {
        track_set_from_tracker(
            table.as_mut_ptr(), starts.as_mut_ptr(), starts.len(), ends.as_mut_ptr(), ends.len(),
            other.as_ptr(), first.as_ptr(), first.len(), last.as_ptr(), last.len(),
            log.entries.as_mut_ptr(), log.entries.len(), log.written, log.free,
        )
    };
    logged(log, after)
}

pub(crate) fn set_and_remove_from_usage_scope_sparse(
    to: &mut TrackerStorage, given: &mut ScopeStorage, indices: &[TrackerIndex], log: &mut LogStorage,
) -> Answer {
    let TrackerStorage { table, starts, ends, .. } = to;
    // SAFETY: each pointer comes from a reference, with its length; what is written is borrowed mutably. A
    // `TrackerIndex` is a `u32` (repr(transparent)).
    let after = unsafe {
        track_set_and_remove_from_usage_scope_sparse(
            table.as_mut_ptr(), starts.as_mut_ptr(), starts.len(), ends.as_mut_ptr(), ends.len(),
            given.table.as_mut_ptr(), given.ranges.as_ptr(), given.ranges.len(),
            indices.as_ptr().cast(), indices.len(),
            log.entries.as_mut_ptr(), log.entries.len(), log.written, log.free,
        )
    };
    logged(log, after)
}

pub(crate) fn empty_log(log: &mut LogStorage) -> Answer {
    // SAFETY: the pointer comes from a reference, with its length, and is only read.
    let after = unsafe { track_empty_log(log.entries.as_ptr(), log.entries.len(), log.written, log.free) };
    logged(log, after)
}

/// Of the first two logs only what is written. What is returned beside the answer is the rest, a part of one of them.
pub(crate) fn merge_logs<'a>(first: &'a [u32], second: &'a [u32], third: &mut LogStorage) -> (Answer, &'a [u32]) {
    // SAFETY: each pointer comes from a reference, with its length; the third is borrowed mutably, so it is another.
    let after = unsafe {
        track_merge_logs(
            first.as_ptr(), first.len(), second.as_ptr(), second.len(),
            third.entries.as_mut_ptr(), third.entries.len(), third.written, third.free,
        )
    };
    let MergedAnswer { answer, written, free, rest_first, rest_offset, rest_length } = after;
    let log = if rest_first == 0 { second } else { first };
    let rest = log.get(rest_offset..).and_then(|rest| rest.get(..rest_length)).unwrap_or_default();
    (logged(third, LoggedAnswer { answer, written, free }), rest)
}

pub(crate) fn read_plan(file: &[u8], items: &mut [Item]) -> CountedAnswer {
    let items = items.as_flattened_mut();
    // SAFETY: each pointer comes from a reference, with its length; the items are borrowed mutably, so they are others.
    unsafe { track_read_plan(file.as_ptr(), file.len(), items.as_mut_ptr(), items.len()) }
}

pub(crate) fn write_plan(items: &[Item], file: &mut [u8]) -> CountedAnswer {
    let items = items.as_flattened();
    // SAFETY: each pointer comes from a reference, with its length; the file is borrowed mutably, so it is another.
    unsafe { track_write_plan(items.as_ptr(), items.len(), file.as_mut_ptr(), file.len()) }
}

pub(crate) fn plan_uses(items: &[Item], uses: &mut [u32]) -> CountedAnswer {
    let items = items.as_flattened();
    // SAFETY: each pointer comes from a reference, with its length; the uses are borrowed mutably, so they are others.
    unsafe { track_plan_uses(items.as_ptr(), items.len(), uses.as_mut_ptr(), uses.len()) }
}

pub(crate) fn scope_is_well_formed(scope: &ScopeStorage) -> bool {
    // SAFETY: each pointer comes from a reference, with its length, and is only read.
    let told = unsafe {
        track_scope_is_well_formed(scope.table.as_ptr(), scope.ranges.as_ptr(), scope.ranges.len())
    };
    told != 0
}

pub(crate) fn tracker_is_well_formed(tracker: &TrackerStorage) -> bool {
    let TrackerStorage { table, starts, ends, .. } = tracker;
    // SAFETY: each pointer comes from a reference, with its length, and is only read.
    let told = unsafe {
        track_tracker_is_well_formed(
            table.as_ptr(), starts.as_ptr(), starts.len(), ends.as_ptr(), ends.len(),
        )
    };
    told != 0
}
