//! The bench of docs/RULES.md: its usage flags, a texture of 2 mips and 4 layers, and its notation.
#![allow(dead_code)]
use texture_tracker::*;

pub const FLAGS: UsageFlags =
    UsageFlags { exclusive: State(20), uninitialized: State(1), complex: State(4096), unknown: State(8192) };
pub const MASK: State = State(10);
pub const EXTENT: Extent = Extent { mips: 2, layers: 4 };
pub const TEXTURE: Texture = texture(0, EXTENT);
/// Nothing is known.
pub const U: u16 = 8192;

pub const fn texture(index: u32, extent: Extent) -> Texture {
    Texture::new(TrackerIndex(index), extent)
}

/// Mip 0, layers 1..3.
pub fn part() -> Selector {
    selector(0..1, 1..3)
}

pub fn selector(mips: std::ops::Range<u32>, layers: std::ops::Range<u32>) -> Selector {
    Selector::new(Mip(mips.start)..Mip(mips.end), Layer(layers.start)..Layer(layers.end))
}

pub fn scope() -> UsageScope {
    UsageScope::open(1, EXTENT, FLAGS).unwrap()
}

pub fn tracker() -> TextureTracker {
    TextureTracker::open(1, EXTENT, FLAGS, MASK).unwrap()
}

pub fn log() -> TransitionLog {
    TransitionLog::with_room_for(1, EXTENT)
}

/// A scope with these uses of all of the texture.
pub fn single(states: &[u16]) -> UsageScope {
    let mut scope = scope();
    for &state in states {
        scope.merge_single(TEXTURE, None, State(state)).unwrap();
    }
    scope
}

/// A scope with one use, of mip 0 and layers 1..3.
pub fn many(state: u16) -> UsageScope {
    let mut scope = scope();
    scope.merge_single(TEXTURE, Some(part()), State(state)).unwrap();
    scope
}

/// A tracker with these uses of all of the texture, one after the other.
pub fn tracked(states: &[u16]) -> TextureTracker {
    let (mut tracker, mut log) = (tracker(), log());
    for &state in states {
        log.clear();
        tracker.set_single(TEXTURE, EXTENT.full_range(), State(state), &mut log).unwrap();
    }
    tracker
}

/// What is held, as the document writes it: "8", or "0..1 U, 1..3 8, 3..4 U; 0..4 U".
pub fn held(states: Option<TextureStates<'_>>) -> String {
    let Some(states) = states else {
        return "unowned".to_string();
    };
    if let Some(State(single)) = states.single() {
        return single.to_string();
    }
    let mips = (0..states.extent().mips).map(|mip| {
        let range = |(layers, State(state)): (Span<Layer>, State)| {
            let name = if state == U { "U".to_string() } else { state.to_string() };
            format!("{}..{} {name}", layers.start.0, layers.end.0)
        };
        states.ranges(Mip(mip)).map(range).collect::<Vec<_>>().join(", ")
    });
    mips.collect::<Vec<_>>().join("; ")
}

pub fn of_scope(scope: &UsageScope) -> String {
    held(scope.states(TrackerIndex(0)))
}

/// Start and end.
pub fn of_tracker(tracker: &TextureTracker) -> (String, String) {
    (held(tracker.start(TrackerIndex(0))), held(tracker.end(TrackerIndex(0))))
}

pub fn transition(selector: Selector, from: u16, to: u16) -> PendingTransition {
    PendingTransition { index: TrackerIndex(0), selector, from: State(from), to: State(to) }
}

pub fn conflict(selector: Selector, current: u16, new: u16) -> Result<(), MergeError> {
    Err(MergeError::Conflict(Conflict {
        index: TrackerIndex(0),
        selector,
        current_state: State(current),
        new_state: State(new),
    }))
}
