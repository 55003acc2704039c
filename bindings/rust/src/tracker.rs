//! Trackers.
use crate::{
    errors::{passed, passed_part, Refusal},
    log::TransitionLog,
    scope::UsageScope,
    state::State,
    states::TextureStates,
    storage::{self, Half, Held, Opening, TrackerStorage},
    sys,
    values::{Extent, Selector, Texture, TrackerIndex, UsageFlags},
};
use core::fmt;

/// What each texture must be in at the start of a list of passes, and what it is in at their end: wgpu-core's
/// `TextureTracker`. Each call takes the end further and logs the transitions that this needs.
///
/// ```
/// use texture_tracker::*;
/// # fn main() -> Result<(), Box<dyn std::error::Error>> {
/// let extent = Extent::new(1, 8);
/// let cameras = Texture::new(TrackerIndex(0), extent);
/// let mut log = TransitionLog::with_room_for(1, extent);
/// let mut tracker = TextureTracker::open(1, extent, uses::FLAGS, uses::ORDERED)?;
/// tracker.set_single(cameras, extent.full_range(), uses::UNINITIALIZED, &mut log)?;
/// assert!(log.is_empty(), "a first use logs nothing");
/// tracker.set_single(cameras, Selector::one(Mip(0), Layer(5)), uses::COPY_DST, &mut log)?;
/// let told: Vec<String> = log.drain_transitions().map(|transition| format!("{transition:#}")).collect();
/// assert_eq!(told, ["texture 0, mip 0, layer 5: UNINITIALIZED to COPY_DST"]);
/// # Ok(())
/// # }
/// ```
///
/// A first use is taken as what the texture already is, and nothing is logged. In a device's tracker set each new
/// texture to `UNINITIALIZED` first, all of it; otherwise the driver is not told of its first uses.
///
/// A tracker cannot be joined with itself, nor a scope merged with itself: the borrow rules see to it.
///
/// ```compile_fail,E0502
/// # use texture_tracker::*;
/// fn twice(tracker: &mut TextureTracker, log: &mut TransitionLog) {
///     let _ = tracker.set_from_tracker(tracker, log);
/// }
/// ```
///
/// Two trackers are equal if they were opened alike and hold the same textures, with the same ranges at start and end:
/// then every call returns the same of both.
///
/// # Freeing an index
///
/// A tracker keeps what it owns: no call forgets one texture. An index is used again at once for a texture of the same
/// extent, by setting all of it to `UNINITIALIZED`, as for a new one; with another extent the calls refuse it
/// ([`ExtentDiffers`](Refusal::ExtentDiffers)). To give an index to a texture of another extent, open a second tracker
/// and set in it what the first one holds at the end, but for that index. Its start is then the same as its end, which
/// is all that the tracker of a device needs:
///
/// ```
/// # use texture_tracker::*;
/// /// What the tracker holds at the end, without the texture of that index.
/// fn without(tracker: &TextureTracker, gone: TrackerIndex, mut next: TextureTracker) -> Result<TextureTracker, Refusal> {
///     let mut log = TransitionLog::with_capacity(0);                // a first use of a subresource logs nothing
///     for states in tracker.owned().filter(|&index| index != gone).filter_map(|index| tracker.end(index)) {
///         let texture = Texture::new(states.index(), states.extent());
///         for (selector, state) in states.iter().filter(|(_, state)| *state != tracker.flags().unknown) {
///             next.set_single(texture, selector, state, &mut log)?;
///         }
///     }
///     Ok(next)
/// }
/// # fn main() -> Result<(), Refusal> {
/// # let extent = Extent::new(2, 4);
/// # let mut log = TransitionLog::with_room_for(3, extent);
/// # let mut tracker = TextureTracker::open(3, extent, uses::FLAGS, uses::ORDERED)?;
/// # for index in [0, 1, 2].map(TrackerIndex) {
/// #     tracker.set_single(Texture::new(index, extent), extent.full_range(), uses::RESOURCE, &mut log)?;
/// # }
/// # tracker.set_single(Texture::new(TrackerIndex(2), extent), Selector::one(Mip(1), Layer(3)), uses::COPY_DST, &mut log)?;
/// let next = TextureTracker::open(3, extent, uses::FLAGS, uses::ORDERED)?;
/// let next = without(&tracker, TrackerIndex(1), next)?;
/// assert!(next.owned().eq([TrackerIndex(0), TrackerIndex(2)]));
/// assert_eq!(next.end(TrackerIndex(2)), tracker.end(TrackerIndex(2)));
/// # Ok(())
/// # }
/// ```
#[derive(Clone)]
pub struct TextureTracker {
    pub(crate) storage: TrackerStorage,
}

impl TextureTracker {
    /// Opens a tracker for `textures` textures (1 to 64), none larger than `largest` (1 to 16 mips, 1 to 256 layers).
    /// It owns none of them yet. All memory that it will ever use is taken here.
    ///
    /// A transition from a state to itself is left out if `ordered` contains the state: the hardware keeps such
    /// uses in order without being told.
    ///
    /// # Errors
    ///
    /// [`NumbersOutOfLimits`](Refusal::NumbersOutOfLimits), [`FlagsBreakRule`](Refusal::FlagsBreakRule).
    pub fn open(textures: u32, largest: Extent, flags: UsageFlags, ordered: State) -> Result<Self, Refusal> {
        let mut storage = TrackerStorage::new(Opening { textures, largest, flags, ordered });
        passed(sys::open_tracker(&mut storage))?;
        Ok(Self { storage })
    }

    /// Opens the tracker again in the memory that it has.
    pub fn clear(&mut self) {
        // The library took these numbers before, so it takes them again.
        let _ = sys::open_tracker(&mut self.storage);
    }

    /// Sets one use of the selected part of a texture.
    ///
    /// # Errors
    ///
    /// Before any change: [`NoSuchIndex`](Refusal::NoSuchIndex), [`ExtentOutOfLimits`](Refusal::ExtentOutOfLimits),
    /// [`ExtentDiffers`](Refusal::ExtentDiffers), [`MipsEmpty`](Refusal::MipsEmpty),
    /// [`MipsReversed`](Refusal::MipsReversed), [`LayersEmpty`](Refusal::LayersEmpty),
    /// [`LayersReversed`](Refusal::LayersReversed), [`SelectorPastExtent`](Refusal::SelectorPastExtent),
    /// [`StateReserved`](Refusal::StateReserved), [`StateIncompatible`](Refusal::StateIncompatible),
    /// [`NoFreeEntry`](Refusal::NoFreeEntry).
    pub fn set_single(
        &mut self,
        texture: Texture,
        selector: Selector,
        new_state: State,
        log: &mut TransitionLog,
    ) -> Result<(), Refusal> {
        passed_part(sys::set_single(&mut self.storage, texture, selector, new_state, &mut log.storage), selector)
    }

    /// Sets every texture that a scope owns, by ascending index: the pass that the scope stands for comes next.
    ///
    /// Do not hand in a scope that met a conflict: part of the rejected use may be in it.
    ///
    /// # Errors
    ///
    /// Before any change: [`FlagsDiffer`](Refusal::FlagsDiffer), [`NoSuchIndex`](Refusal::NoSuchIndex),
    /// [`ExtentOutOfLimits`](Refusal::ExtentOutOfLimits), [`ExtentDiffers`](Refusal::ExtentDiffers),
    /// [`NoFreeEntry`](Refusal::NoFreeEntry).
    pub fn set_from_usage_scope(&mut self, scope: &UsageScope, log: &mut TransitionLog) -> Result<(), Refusal> {
        passed(sys::set_from_usage_scope(&mut self.storage, &scope.storage, &mut log.storage))
    }

    /// Joins the tracker with another, whose passes come next, by ascending index: transitions lead to the other's
    /// start, and its end is what they leave. So wgpu-core takes a command buffer into its device.
    ///
    /// # Errors
    ///
    /// Those of [`set_from_usage_scope`](Self::set_from_usage_scope).
    ///
    /// ```
    /// # use texture_tracker::*;
    /// # fn main() -> Result<(), Refusal> {
    /// # let extent = Extent::new(1, 8);
    /// # let cameras = Texture::new(TrackerIndex(0), extent);
    /// # let mut log = TransitionLog::with_room_for(1, extent);
    /// # let open = || TextureTracker::open(1, extent, uses::FLAGS, uses::ORDERED);
    /// let (mut device, mut commands) = (open()?, open()?);
    /// device.set_single(cameras, extent.full_range(), uses::UNINITIALIZED, &mut log)?;
    /// commands.set_single(cameras, extent.full_range(), uses::COPY_DST, &mut log)?;
    /// commands.set_single(cameras, extent.full_range(), uses::RESOURCE, &mut log)?;
    /// log.clear();                             // what happens between the commands was told to the driver
    ///
    /// device.set_from_tracker(&commands, &mut log)?;
    /// let before: Vec<_> = log.drain_transitions().map(|each| (each.from, each.to)).collect();
    /// assert_eq!(before, [(uses::UNINITIALIZED, uses::COPY_DST)]);
    /// assert_eq!(device.end(TrackerIndex(0)).and_then(|end| end.single()), Some(uses::RESOURCE));
    /// # Ok(())
    /// # }
    /// ```
    pub fn set_from_tracker(&mut self, tracker: &TextureTracker, log: &mut TransitionLog) -> Result<(), Refusal> {
        passed(sys::set_from_tracker(&mut self.storage, &tracker.storage, &mut log.storage))
    }

    /// Sets the listed textures of a scope, in the order of the list, and takes them out of the scope. What the scope
    /// does not own is passed over, and an index that is listed twice counts once.
    ///
    /// # Errors
    ///
    /// Those of [`set_from_usage_scope`](Self::set_from_usage_scope).
    ///
    /// ```
    /// # use texture_tracker::*;
    /// # fn main() -> Result<(), Box<dyn std::error::Error>> {
    /// # let extent = Extent::new(1, 8);
    /// # let mut log = TransitionLog::with_room_for(2, extent);
    /// # let mut tracker = TextureTracker::open(2, extent, uses::FLAGS, uses::ORDERED)?;
    /// let mut pass = UsageScope::open(2, extent, uses::FLAGS)?;
    /// for index in [0, 1].map(TrackerIndex) {
    ///     pass.merge_single(Texture::new(index, extent), None, uses::RESOURCE)?;
    /// }
    /// tracker.set_and_remove_from_usage_scope_sparse(&mut pass, &[TrackerIndex(1)], &mut log)?;
    /// assert!(pass.owned().eq([TrackerIndex(0)]));
    /// assert!(tracker.owned().eq([TrackerIndex(1)]));
    /// # Ok(())
    /// # }
    /// ```
    pub fn set_and_remove_from_usage_scope_sparse(
        &mut self,
        scope: &mut UsageScope,
        indices: &[TrackerIndex],
        log: &mut TransitionLog,
    ) -> Result<(), Refusal> {
        let (scope, log) = (&mut scope.storage, &mut log.storage);
        passed(sys::set_and_remove_from_usage_scope_sparse(&mut self.storage, scope, indices, log))
    }

    /// The usage flags that the tracker was opened with.
    #[must_use]
    pub fn flags(&self) -> UsageFlags {
        self.storage.opening.flags
    }

    /// The ordered uses that the tracker was opened with.
    #[must_use]
    pub fn ordered(&self) -> State {
        self.storage.opening.ordered
    }

    /// Every texture that the tracker owns, by ascending index.
    pub fn owned(&self) -> impl Iterator<Item = TrackerIndex> + Clone + '_ {
        storage::owned(&self.storage.table)
    }

    /// What a texture must be in at the start, if the tracker owns it.
    #[must_use]
    pub fn start(&self, index: TrackerIndex) -> Option<TextureStates<'_>> {
        let TrackerStorage { table, starts, .. } = &self.storage;
        Held::of(table, starts, Half::Start, index).map(TextureStates::new)
    }

    /// What a texture is in at the end, if the tracker owns it.
    #[must_use]
    pub fn end(&self, index: TrackerIndex) -> Option<TextureStates<'_>> {
        let TrackerStorage { table, ends, .. } = &self.storage;
        Held::of(table, ends, Half::End, index).map(TextureStates::new)
    }

    /// Whether the storage is what the library left there. Each call tests it by itself, and returns
    /// [`Refusal::NotWellFormed`] if a fault of the memory has damaged it.
    #[must_use]
    pub fn is_well_formed(&self) -> bool {
        sys::tracker_is_well_formed(&self.storage)
    }

    /// The textures with what is held of each.
    fn held(&self) -> impl Iterator<Item = (TrackerIndex, Halves<'_>)> {
        let halves = |index| Some(Halves { start: self.start(index)?, end: self.end(index)? });
        self.owned().filter_map(move |index| Some((index, halves(index)?)))
    }
}

/// Of one texture.
#[derive(Debug, PartialEq)]
struct Halves<'a> {
    start: TextureStates<'a>,
    end: TextureStates<'a>,
}

impl PartialEq for TextureTracker {
    fn eq(&self, other: &Self) -> bool {
        self.storage.opening == other.storage.opening && self.held().eq(other.held())
    }
}

impl Eq for TextureTracker {}

/// Each texture with its start and its end; with wgpu's names in a tracker that was opened with
/// [`uses::FLAGS`](crate::uses::FLAGS).
impl fmt::Debug for TextureTracker {
    fn fmt(&self, f: &mut fmt::Formatter<'_>) -> fmt::Result {
        f.debug_map().entries(self.held()).finish()
    }
}
