//! The transition log.
use crate::{
    errors::{naming, passed, Refusal, Written},
    state::State,
    storage::{self, subresources, LogStorage, ENTRY},
    sys,
    values::{Extent, Selector, TrackerIndex},
};
use alloc::string::String;
use core::{fmt, slice::ChunksExact};

/// A change of use that the driver has to be told: wgpu-core's `PendingTransition`.
#[derive(Clone, Copy, Debug, PartialEq, Eq, Hash)]
pub struct PendingTransition {
    /// The texture.
    pub index: TrackerIndex,
    /// Its mips and layers that change.
    pub selector: Selector,
    /// The state before.
    pub from: State,
    /// The state after.
    pub to: State,
}

impl PendingTransition {
    /// The same in words, with names for the states.
    ///
    /// ```
    /// use texture_tracker::{uses, Extent, PendingTransition, TrackerIndex};
    /// let selector = Extent::new(1, 8).full_range();
    /// let (from, to) = (uses::COPY_DST, uses::RESOURCE);
    /// let transition = PendingTransition { index: TrackerIndex(0), selector, from, to };
    /// let words = "texture 0, mip 0, layers 0 to 7: COPY_DST to RESOURCE";
    /// assert_eq!(transition.named(uses::name).to_string(), words);
    /// assert_eq!(format!("{transition:#}"), words);
    /// ```
    pub fn named<'a, N: Fn(State) -> String + 'a>(&'a self, naming: N) -> impl fmt::Display + 'a {
        Written(move |f: &mut fmt::Formatter<'_>| {
            let TrackerIndex(index) = self.index;
            let (from, to) = (naming(self.from), naming(self.to));
            write!(f, "texture {index}, {}: {from} to {to}", self.selector)
        })
    }
}

/// With the numbers of the states; with `{:#}` with wgpu's names.
impl fmt::Display for PendingTransition {
    fn fmt(&self, f: &mut fmt::Formatter<'_>) -> fmt::Result {
        self.named(naming(f)).fmt(f)
    }
}

/// Where a tracker's calls write their transitions, one after the other, until it is emptied. wgpu-core keeps it
/// inside the tracker, as `temp`, and lets it grow; here it has room for a number of entries that does not change.
///
/// The entries of a call go by ascending index (of the sparse call in the order of its list), then mip, then layer.
/// Entries are not joined; `docs/RULES.md` of the repository has how many there are.
///
/// A call that needs more entries than are free is refused with [`NoFreeEntry`](crate::Refusal::NoFreeEntry) and
/// changes nothing. No call of a tracker needs more than one for each subresource that it names, so a log
/// [`with_room_for`](Self::with_room_for) the tracker's textures, emptied before each call, never makes that happen.
///
/// ```
/// use texture_tracker::*;
/// # fn main() -> Result<(), Refusal> {
/// let extent = Extent::new(2, 4);
/// let cameras = Texture::new(TrackerIndex(0), extent);
/// let mut tracker = TextureTracker::open(1, extent, uses::FLAGS, uses::ORDERED)?;
/// let mut log = TransitionLog::with_capacity(1);
/// tracker.set_single(cameras, extent.full_range(), uses::COPY_DST, &mut log)?;
/// tracker.set_single(cameras, extent.full_range(), uses::RESOURCE, &mut log)?;
/// assert_eq!((log.len(), log.free()), (1, 0));
///
/// let refused = tracker.set_single(cameras, extent.full_range(), uses::COPY_DST, &mut log);
/// assert_eq!(refused, Err(Refusal::NoFreeEntry));
/// log.clear();
/// tracker.set_single(cameras, extent.full_range(), uses::COPY_DST, &mut log)?;
/// for back in &log {
///     assert_eq!((back.from, back.to), (uses::RESOURCE, uses::COPY_DST));
/// }
/// # Ok(())
/// # }
/// ```
///
/// Two logs are equal if the same transitions are written in them, and as many entries are free.
#[derive(Clone)]
pub struct TransitionLog {
    pub(crate) storage: LogStorage,
}

impl TransitionLog {
    /// A log with a free entry for every subresource of that many textures of that extent: enough for any one call
    /// of a tracker that was opened with the same numbers.
    #[must_use]
    pub fn with_room_for(textures: u32, largest: Extent) -> Self {
        Self { storage: LogStorage::new(subresources(textures, largest)) }
    }

    /// A log with that many free entries, 28 bytes each, taken at once. A size that cannot be had ends the program, as
    /// with `Vec`.
    #[must_use]
    pub fn with_capacity(entries: u32) -> Self {
        Self { storage: LogStorage::new(entries as usize) }
    }

    /// How many entries are written.
    #[must_use]
    pub fn len(&self) -> usize {
        self.storage.written
    }

    /// Whether no entry is written.
    #[must_use]
    pub fn is_empty(&self) -> bool {
        self.len() == 0
    }

    /// How many entries are free.
    #[must_use]
    pub fn free(&self) -> usize {
        self.storage.free
    }

    /// The transitions that are written, in their order.
    #[must_use]
    pub fn iter(&self) -> Transitions<'_> {
        Transitions::of(self.storage.told())
    }

    /// Empties the log, and returns the transitions that were written, in their order.
    pub fn drain_transitions(&mut self) -> Transitions<'_> {
        let written = self.len();
        self.clear();
        // Emptying leaves the entries where they are.
        Transitions::of(self.storage.first(written))
    }

    /// Empties the log.
    pub fn clear(&mut self) {
        // The head is this crate's own, so the library takes it. Were it damaged, the entries tell how many are free.
        if passed(sys::empty_log(&mut self.storage)).is_err() {
            self.storage.empty();
        }
    }
}

impl fmt::Debug for TransitionLog {
    fn fmt(&self, f: &mut fmt::Formatter<'_>) -> fmt::Result {
        f.debug_list().entries(self).finish()
    }
}

impl PartialEq for TransitionLog {
    fn eq(&self, other: &Self) -> bool {
        self.free() == other.free() && self.iter().eq(other)
    }
}

impl Eq for TransitionLog {}

impl<'a> IntoIterator for &'a TransitionLog {
    type Item = PendingTransition;
    type IntoIter = Transitions<'a>;

    fn into_iter(self) -> Transitions<'a> {
        self.iter()
    }
}

/// Merges two logs into a third, after what is written there, until one of the two is used up. The lower index goes
/// first, and of equal ones the first log's transition. What is left of the other log is returned, as a part of it: it is
/// not copied, and goes to the driver from its own memory.
///
/// So what is merged and the rest together have every transition of both once, ascending, each log's own order kept. If
/// one log is empty, nothing is merged, and the rest is the other one, whole.
///
/// ```
/// use texture_tracker::*;
/// # fn main() -> Result<(), Refusal> {
/// /// What is logged of some cameras, a texture each: their pictures are copied in.
/// fn logged(cameras: &[u32]) -> Result<TransitionLog, Refusal> {
///     let extent = Extent::new(1, 1);
///     let mut tracker = TextureTracker::open(8, extent, uses::FLAGS, uses::ORDERED)?;
///     let mut log = TransitionLog::with_room_for(8, extent);
///     for texture in cameras.iter().map(|&camera| Texture::new(TrackerIndex(camera), extent)) {
///         tracker.set_single(texture, extent.full_range(), uses::UNINITIALIZED, &mut log)?;
///         tracker.set_single(texture, extent.full_range(), uses::COPY_DST, &mut log)?;
///     }
///     Ok(log)
/// }
/// let (left, right) = (logged(&[0, 1, 4])?, logged(&[1, 2, 6, 7])?);
/// let mut both = TransitionLog::with_capacity(7);
/// let rest = merge_logs(&left, &right, &mut both)?;
/// assert!(both.iter().map(|each| each.index.0).eq([0, 1, 1, 2, 4]));
/// assert!(rest.iter().map(|each| each.index.0).eq([6, 7]));
/// for transition in both.iter().chain(rest) {
///     assert_eq!(transition.to, uses::COPY_DST);                               // the driver is told
/// }
/// # Ok(())
/// # }
/// ```
///
/// The rest may be of either log, so both stay borrowed as long as it is used.
///
/// ```compile_fail,E0502
/// # use texture_tracker::*;
/// fn emptied(left: &mut TransitionLog, right: &TransitionLog, both: &mut TransitionLog) -> Result<usize, Refusal> {
///     let rest = merge_logs(left, right, both)?;
///     left.clear();
///     Ok(rest.len())
/// }
/// ```
///
/// # Errors
///
/// Before any change: [`LogOutOfOrder`](Refusal::LogOutOfOrder) if the indices of a log descend anywhere, also in what
/// would be the rest. One call leaves them ascending, but for the sparse call, which goes by its list; the log of several
/// calls may descend. [`NoFreeEntry`](Refusal::NoFreeEntry) if more is merged than is free in the third log. What stands
/// there already is not looked at.
pub fn merge_logs<'a>(
    first: &'a TransitionLog,
    second: &'a TransitionLog,
    out: &mut TransitionLog,
) -> Result<Rest<'a>, Refusal> {
    let (answer, numbers) = sys::merge_logs(first.storage.told(), second.storage.told(), &mut out.storage);
    passed(answer)?;
    Ok(Rest { numbers })
}

/// What [`merge_logs`] leaves of one of two logs: its last transitions, where they stand in that log.
#[derive(Clone, Copy, PartialEq, Eq)]
pub struct Rest<'a> {
    numbers: &'a [u32],
}

impl<'a> Rest<'a> {
    /// How many transitions are left.
    #[must_use]
    pub fn len(self) -> usize {
        self.numbers.len() / ENTRY
    }

    /// Whether none is left.
    #[must_use]
    pub fn is_empty(self) -> bool {
        self.len() == 0
    }

    /// The transitions, in their order.
    #[must_use]
    pub fn iter(self) -> Transitions<'a> {
        Transitions::of(self.numbers)
    }

    /// Their numbers in the memory of the log, seven for each: index, mip start, mip end, layer start, layer end, old
    /// state, new state.
    #[must_use]
    pub fn numbers(self) -> &'a [u32] {
        self.numbers
    }
}

impl fmt::Debug for Rest<'_> {
    fn fmt(&self, f: &mut fmt::Formatter<'_>) -> fmt::Result {
        f.debug_list().entries(self.iter()).finish()
    }
}

impl<'a> IntoIterator for Rest<'a> {
    type Item = PendingTransition;
    type IntoIter = Transitions<'a>;

    fn into_iter(self) -> Transitions<'a> {
        self.iter()
    }
}

/// The transitions of a log, in their order.
#[derive(Clone, Debug)]
pub struct Transitions<'a> {
    entries: ChunksExact<'a, u32>,
}

impl<'a> Transitions<'a> {
    fn of(numbers: &'a [u32]) -> Self {
        Self { entries: numbers.chunks_exact(ENTRY) }
    }
}

impl Iterator for Transitions<'_> {
    type Item = PendingTransition;

    fn next(&mut self) -> Option<PendingTransition> {
        let (index, selector, from, to) = storage::entry(self.entries.next()?);
        Some(PendingTransition { index, selector, from, to })
    }

    fn size_hint(&self) -> (usize, Option<usize>) {
        self.entries.size_hint()
    }
}

impl ExactSizeIterator for Transitions<'_> {}
