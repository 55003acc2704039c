//! A child of texture.rs, so it sees that module's private fields: it reads every state that a
//! set holds as plain numbers, and puts any state in.
use super::*;

/// A range of layers and its state.
pub(crate) type Record = (u32, u32, u16);
pub(crate) type Ranges = RangedStates<u32, TextureUses>;

/// One half of what is held of a texture: a scope has one, a tracker start and end.
pub(crate) enum Half {
    Single(u16),
    /// For each mip its ranges.
    Many(Vec<Vec<Record>>),
}

pub(crate) enum Set {
    Scope(TextureUsageScope),
    Tracker(TextureTracker),
}

pub(crate) struct Held {
    pub texture: Arc<Texture>,
    pub halves: Vec<Half>,
}

pub(crate) fn uses(bits: u16) -> TextureUses {
    TextureUses::from_bits_retain(bits)
}

/// Ranged states made of any records that are nonempty, ascending and do not overlap. There is
/// no such constructor outside the crate's tests, but isolating past the end appends.
pub(crate) fn ranges_of(records: &[Record]) -> Ranges {
    let Some(&(start, end, state)) = records.first() else {
        return no_ranges();
    };
    let mut ranges = Ranges::from_range(start..end, uses(state));
    for &(start, end, state) in &records[1..] {
        ranges.isolate(&(start..end), uses(state));
    }
    assert_eq!(records_of(&ranges), records);
    ranges
}

/// Two touching empty equals: coalescing takes both away.
fn no_ranges() -> Ranges {
    let mut ranges = Ranges::from_range(0..0, uses(0));
    ranges.isolate(&(0..0), uses(0));
    ranges.coalesce();
    ranges
}

pub(crate) fn records_of(ranges: &Ranges) -> Vec<Record> {
    let record = |(layers, state): &(core::ops::Range<u32>, TextureUses)| {
        (layers.start, layers.end, state.bits())
    };
    ranges.iter().map(record).collect()
}

fn half_of(set: &TextureStateSet, index: usize) -> Half {
    set.tracker_assert_in_bounds(index);
    match unsafe { set.get_unchecked(index) } {
        SingleOrManyStates::Single(state) => Half::Single(state.bits()),
        SingleOrManyStates::Many(complex) => {
            Half::Many(complex.mips.iter().map(records_of).collect())
        }
    }
}

fn put_half(set: &mut TextureStateSet, index: usize, half: &Half) {
    set.tracker_assert_in_bounds(index);
    match half {
        Half::Single(state) => unsafe { set.insert_simple_unchecked(index, uses(*state)) },
        Half::Many(mips) => {
            let mips = mips.iter().map(|records| ranges_of(records)).collect();
            unsafe { set.insert_complex_unchecked(index, ComplexTextureState { mips }) }
        }
    }
}

impl Set {
    fn metadata(&self) -> &ResourceMetadata<Arc<Texture>> {
        match self {
            Set::Scope(scope) => &scope.metadata,
            Set::Tracker(tracker) => &tracker.metadata,
        }
    }

    /// Everything that is owned, by ascending index.
    pub fn held(&self) -> Vec<Held> {
        let texture = |index| unsafe { self.metadata().get_resource_unchecked(index) };
        let halves = |index| match self {
            Set::Scope(scope) => vec![half_of(&scope.set, index)],
            Set::Tracker(tracker) => vec![
                half_of(&tracker.start_set, index),
                half_of(&tracker.end_set, index),
            ],
        };
        let held = |index| Held {
            texture: Arc::clone(texture(index)),
            halves: halves(index),
        };
        self.metadata().owned_indices().map(held).collect()
    }

    pub fn put(&mut self, held: Held) {
        match self {
            Set::Scope(scope) => put_in_scope(scope, held),
            Set::Tracker(tracker) => put_in_tracker(tracker, held),
        }
    }
}

pub(crate) fn put_in_scope(scope: &mut TextureUsageScope, held: Held) {
    let index = held.texture.tracker_index().as_usize();
    put_half(&mut scope.set, index, &held.halves[0]);
    unsafe { scope.metadata.insert(index, held.texture) };
}

pub(crate) fn put_in_tracker(tracker: &mut TextureTracker, held: Held) {
    let index = held.texture.tracker_index().as_usize();
    put_half(&mut tracker.start_set, index, &held.halves[0]);
    put_half(&mut tracker.end_set, index, &held.halves[1]);
    unsafe { tracker.metadata.insert(index, held.texture) };
}

/// Makes a texture owned whose states are there.
pub(crate) fn own(scope: &mut TextureUsageScope, texture: &Arc<Texture>) {
    let index = texture.tracker_index().as_usize();
    unsafe { scope.metadata.insert(index, Arc::clone(texture)) };
}

/// The pending transitions, which stay pending.
pub(crate) fn pending(tracker: &TextureTracker) -> &[PendingTransition<TextureUses>] {
    &tracker.temp
}

/// Forgets the pending transitions.
pub(crate) fn forget(tracker: &mut TextureTracker) {
    tracker.temp.clear();
}

pub(crate) fn owned_texture(scope: &TextureUsageScope, index: u32) -> Option<Arc<Texture>> {
    let owned = scope.metadata.contains(index as usize);
    owned.then(|| unsafe { Arc::clone(scope.metadata.get_resource_unchecked(index as usize)) })
}

/// Index, mips, layers, the state held and the state given.
pub(crate) fn conflict(error: &ResourceUsageCompatibilityError) -> [u32; 7] {
    let ResourceUsageCompatibilityError::Texture {
        res,
        mip_levels,
        array_layers,
        invalid_use,
    } = error;
    [
        res.index,
        mip_levels.start,
        mip_levels.end,
        array_layers.start,
        array_layers.end,
        invalid_use.current_state.bits().into(),
        invalid_use.new_state.bits().into(),
    ]
}
