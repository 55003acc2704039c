//! Reading back what a set holds of a texture.
use crate::{
    errors::Written,
    grid::Grid,
    state::State,
    storage::Held,
    uses,
    values::{Extent, Layer, Mip, Selector, Span, TrackerIndex, UsageFlags},
};
use alloc::string::{String, ToString};
use core::fmt;

/// The states that a set holds of one texture: a scope's, or the start or the end of a tracker's.
///
/// A texture is held *Single*, all of it in one state, or *Many*: for each mip, ranges of layers with a state each
/// (wgpu-core's `SingleOrManyStates`). Either way every subresource has its state.
///
/// ```
/// use texture_tracker::*;
/// # fn main() -> Result<(), Box<dyn std::error::Error>> {
/// let extent = Extent::new(2, 4);
/// let cameras = Texture::new(TrackerIndex(0), extent);
/// let mut scope = UsageScope::open(1, extent, uses::FLAGS)?;
/// scope.merge_single(cameras, Some(Selector::one(Mip(0), Layer(1))), uses::COPY_DST)?;
///
/// let states = scope.states(TrackerIndex(0)).ok_or("not used")?;
/// assert_eq!(states.single(), None);
/// assert_eq!(states.state(Mip(0), Layer(1)), Some(uses::COPY_DST));
/// assert_eq!(states.state(Mip(1), Layer(1)), Some(uses::UNKNOWN));
/// assert_eq!(states.state(Mip(2), Layer(1)), None);
/// let ranges: Vec<_> = states.ranges(Mip(0)).collect();
/// assert_eq!(ranges[0], ((Layer(0)..Layer(1)).into(), uses::UNKNOWN));
/// assert_eq!(ranges[1], ((Layer(1)..Layer(2)).into(), uses::COPY_DST));
/// # Ok(())
/// # }
/// ```
///
/// Two are equal if they are of the same extent and held alike, range by range. The index does not count.
#[derive(Clone, Copy)]
pub struct TextureStates<'a> {
    held: Held<'a>,
}

impl<'a> TextureStates<'a> {
    pub(crate) fn new(held: Held<'a>) -> Self {
        Self { held }
    }

    /// The texture's position in the set.
    #[must_use]
    pub fn index(&self) -> TrackerIndex {
        self.held.index()
    }

    /// The texture's mips and layers.
    #[must_use]
    pub fn extent(&self) -> Extent {
        self.held.extent()
    }

    /// The usage flags of the set.
    pub(crate) fn flags(&self) -> UsageFlags {
        self.held.flags()
    }

    /// The one state of a texture that is held Single; None where it is Many.
    #[must_use]
    pub fn single(&self) -> Option<State> {
        self.held.single()
    }

    /// The state of one subresource; None past the texture's extent.
    #[must_use]
    pub fn state(&self, mip: Mip, layer: Layer) -> Option<State> {
        let mut ranges = self.ranges(mip);
        ranges.find(|(layers, _)| layers.contains(&layer)).map(|(_, state)| state)
    }

    /// The ranges of a mip, in the order of their layers; of a Single texture one over all layers. There are none
    /// past the texture's extent.
    pub fn ranges(&self, mip: Mip) -> impl Iterator<Item = (Span<Layer>, State)> + Clone + 'a {
        let extent = self.extent();
        let single = self.single().filter(|_| mip.0 < extent.mips);
        let whole = single.map(|state| (extent.full_range().layers, state));
        whole.into_iter().chain(self.held.ranges(mip.0))
    }

    /// All states with their places, as they are stored: one of a Single texture, otherwise mip by mip each range.
    pub fn iter(&self) -> impl Iterator<Item = (Selector, State)> + Clone + 'a {
        let Self { held } = *self;
        let whole = self.single().map(|state| (self.extent().full_range(), state));
        let in_mip = |mip| move |(layers, state): (Span<Layer>, State)| (Selector::new(Mip(mip), layers), state);
        let of_mip = move |mip| held.ranges(mip).map(in_mip(mip));
        whole.into_iter().chain(held.mips().flat_map(of_mip))
    }

    /// The states as a picture for people: a row for each layer, a column for each mip. [`Grid`] shows one.
    pub fn grid<N: Fn(State) -> String>(&self, names: N) -> Grid<'a, N> {
        Grid::new(*self, names)
    }
}

impl PartialEq for TextureStates<'_> {
    fn eq(&self, other: &Self) -> bool {
        let held = |states: &Self| (states.extent(), states.single());
        held(self) == held(other) && self.iter().eq(other.iter())
    }
}

impl Eq for TextureStates<'_> {}

/// Each state with its place. A set that was opened with [`uses::FLAGS`] shows wgpu's names.
impl fmt::Debug for TextureStates<'_> {
    fn fmt(&self, f: &mut fmt::Formatter<'_>) -> fmt::Result {
        let name = if self.flags() == uses::FLAGS { uses::name } else { |state: State| state.to_string() };
        let shown =
            |(selector, state)| Written(move |f: &mut fmt::Formatter<'_>| write!(f, "{selector}: {}", name(state)));
        f.debug_list().entries(self.iter().map(shown)).finish()
    }
}
