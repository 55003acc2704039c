//! Usage scopes.
use crate::{
    errors::{merged, merged_part, passed, MergeError, Refusal},
    plan::Use,
    state::State,
    states::TextureStates,
    storage::{self, Half, Held, Opening, ScopeStorage},
    sys,
    values::{Extent, Selector, Texture, TrackerIndex, UsageFlags},
};
use core::fmt;

/// The uses of one pass, all made at the same time: wgpu-core's `TextureUsageScope`.
///
/// Uses of one subresource are united. If one of them is exclusive and another differs from it, the merge reports a
/// [`Conflict`](crate::Conflict).
///
/// ```
/// use texture_tracker::*;
/// # fn main() -> Result<(), Box<dyn std::error::Error>> {
/// let extent = Extent::new(1, 8);
/// let cameras = Texture::new(TrackerIndex(0), extent);
/// let mut scope = UsageScope::open(1, extent, uses::FLAGS)?;
/// scope.merge_single(cameras, None, uses::RESOURCE)?;
/// let camera_5 = Selector::layer(Layer(5), extent);
/// let conflict = scope.merge_single(cameras, Some(camera_5), uses::COPY_DST).unwrap_err();
/// assert_eq!(
///     format!("{conflict:#}"),
///     "texture 0, mip 0, layer 5: in use as RESOURCE, cannot be used as COPY_DST beside it"
/// );
/// # Ok(())
/// # }
/// ```
///
/// A pass in conflict must not run: [`clear`](Self::clear) its scope, and do not hand it to a tracker, since part of
/// the rejected use may be in it.
///
/// Two scopes are equal if they were opened alike and hold the same textures, with the same ranges: then every
/// call returns the same of both.
///
/// # Taking a texture out
///
/// No call forgets one texture of a scope. A tracker of the same size takes it out:
/// [`set_and_remove_from_usage_scope_sparse`](crate::TextureTracker::set_and_remove_from_usage_scope_sparse) with its
/// index. [`clear`](Self::clear) takes them all out.
#[derive(Clone)]
pub struct UsageScope {
    pub(crate) storage: ScopeStorage,
}

impl UsageScope {
    /// Opens a scope for `textures` textures (1 to 64), none larger than `largest` (1 to 16 mips, 1 to 256 layers).
    /// It owns none of them yet. All memory that it will ever use is taken here.
    ///
    /// # Errors
    ///
    /// [`NumbersOutOfLimits`](Refusal::NumbersOutOfLimits), [`FlagsBreakRule`](Refusal::FlagsBreakRule).
    pub fn open(textures: u32, largest: Extent, flags: UsageFlags) -> Result<Self, Refusal> {
        let ordered = State(0);
        let mut storage = ScopeStorage::new(Opening { textures, largest, flags, ordered });
        passed(sys::open_scope(&mut storage))?;
        Ok(Self { storage })
    }

    /// Opens the scope again, for the next pass, in the memory that it has.
    pub fn clear(&mut self) {
        // The library took these numbers before, so it takes them again.
        let _ = sys::open_scope(&mut self.storage);
    }

    /// Merges one use: of all of the texture, or of the part that the selector names.
    ///
    /// # Errors
    ///
    /// [`MergeError::Conflict`] if the use excludes one that the scope holds there. What lies before the conflict is
    /// merged, and stays, as in wgpu-core. [`MergeError::Refused`], before any change, with
    /// [`NoSuchIndex`](Refusal::NoSuchIndex), [`ExtentOutOfLimits`](Refusal::ExtentOutOfLimits),
    /// [`ExtentDiffers`](Refusal::ExtentDiffers), [`MipsEmpty`](Refusal::MipsEmpty),
    /// [`MipsReversed`](Refusal::MipsReversed), [`LayersEmpty`](Refusal::LayersEmpty),
    /// [`LayersReversed`](Refusal::LayersReversed), [`SelectorPastExtent`](Refusal::SelectorPastExtent),
    /// [`StateReserved`](Refusal::StateReserved) or [`StateIncompatible`](Refusal::StateIncompatible).
    pub fn merge_single(
        &mut self,
        texture: Texture,
        selector: Option<Selector>,
        new_state: State,
    ) -> Result<(), MergeError> {
        let answer = sys::merge_single(&mut self.storage, texture, selector, new_state);
        merged_part(answer, selector.unwrap_or(texture.extent.full_range()))
    }

    /// Merges one use that is given as a value, as a [`Plan`](crate::Plan) has them: it is
    /// [`merge_single`](Self::merge_single) with its texture, selector and state.
    ///
    /// # Errors
    ///
    /// The same.
    pub fn merge_use(&mut self, one: Use) -> Result<(), MergeError> {
        self.merge_single(one.texture, Some(one.selector), one.state)
    }

    /// Merges every texture of another scope, by ascending index, up to the first conflict.
    ///
    /// # Errors
    ///
    /// [`MergeError::Conflict`] if two uses exclude each other. What was merged before the conflict stays, as in
    /// wgpu-core. [`MergeError::Refused`], before any change, with [`FlagsDiffer`](Refusal::FlagsDiffer),
    /// [`NoSuchIndex`](Refusal::NoSuchIndex), [`ExtentOutOfLimits`](Refusal::ExtentOutOfLimits) or
    /// [`ExtentDiffers`](Refusal::ExtentDiffers).
    ///
    /// ```
    /// # use texture_tracker::*;
    /// # fn main() -> Result<(), Box<dyn std::error::Error>> {
    /// # let extent = Extent::new(1, 8);
    /// # let cameras = Texture::new(TrackerIndex(0), extent);
    /// let mut pass = UsageScope::open(1, extent, uses::FLAGS)?;
    /// pass.merge_single(cameras, None, uses::RESOURCE)?;
    /// let mut bundle = UsageScope::open(1, extent, uses::FLAGS)?;
    /// bundle.merge_single(cameras, None, uses::COPY_SRC)?;
    ///
    /// pass.merge_usage_scope(&bundle)?;
    /// let states = pass.states(TrackerIndex(0)).ok_or("not used")?;
    /// assert_eq!(states.single(), Some(uses::COPY_SRC | uses::RESOURCE));
    /// # Ok(())
    /// # }
    /// ```
    pub fn merge_usage_scope(&mut self, scope: &UsageScope) -> Result<(), MergeError> {
        merged(sys::merge_usage_scope(&mut self.storage, &scope.storage))
    }

    /// The usage flags that the scope was opened with.
    #[must_use]
    pub fn flags(&self) -> UsageFlags {
        self.storage.opening.flags
    }

    /// Every texture that the scope owns, by ascending index.
    pub fn owned(&self) -> impl Iterator<Item = TrackerIndex> + Clone + '_ {
        storage::owned(&self.storage.table)
    }

    /// The states of a texture, if the scope owns it.
    #[must_use]
    pub fn states(&self, index: TrackerIndex) -> Option<TextureStates<'_>> {
        let ScopeStorage { table, ranges, .. } = &self.storage;
        Held::of(table, ranges, Half::Start, index).map(TextureStates::new)
    }

    /// Whether the storage is what the library left there. Each call tests it by itself, and returns
    /// [`Refusal::NotWellFormed`] if a fault of the memory has damaged it.
    #[must_use]
    pub fn is_well_formed(&self) -> bool {
        sys::scope_is_well_formed(&self.storage)
    }

    /// The textures with what is held of each.
    fn held(&self) -> impl Iterator<Item = (TrackerIndex, TextureStates<'_>)> {
        self.owned().filter_map(|index| Some((index, self.states(index)?)))
    }
}

impl PartialEq for UsageScope {
    fn eq(&self, other: &Self) -> bool {
        self.storage.opening == other.storage.opening && self.held().eq(other.held())
    }
}

impl Eq for UsageScope {}

/// Each texture with its states; with wgpu's names in a scope that was opened with [`uses::FLAGS`](crate::uses::FLAGS).
impl fmt::Debug for UsageScope {
    fn fmt(&self, f: &mut fmt::Formatter<'_>) -> fmt::Result {
        f.debug_map().entries(self.held()).finish()
    }
}
