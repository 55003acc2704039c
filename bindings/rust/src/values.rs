//! The plain values: indices, mips and layers kept apart, extents, selectors, usage flags.
use crate::state::State;
use core::{
    fmt,
    ops::{Range, RangeInclusive},
};

/// The position of a texture in a set: wgpu-core's `TrackerIndex`.
#[repr(transparent)]
#[derive(Clone, Copy, Debug, PartialEq, Eq, PartialOrd, Ord, Hash)]
pub struct TrackerIndex(pub u32);

/// The number of a mip level.
#[derive(Clone, Copy, Debug, PartialEq, Eq, PartialOrd, Ord, Hash)]
pub struct Mip(pub u32);

/// The number of an array layer: in a sorter, of a camera.
#[derive(Clone, Copy, Debug, PartialEq, Eq, PartialOrd, Ord, Hash)]
pub struct Layer(pub u32);

/// What the tracker must know of the uses. In wgpu these are constants of `TextureUses`; here they are given at
/// opening. A set is opened only if the last three are one bit each and all different, and [`complex`] and
/// [`unknown`] are not in [`exclusive`].
///
/// [`complex`]: Self::complex
/// [`unknown`]: Self::unknown
/// [`exclusive`]: Self::exclusive
#[derive(Clone, Copy, Debug, PartialEq, Eq, Hash)]
pub struct UsageFlags {
    /// The uses that allow no other use beside them: those that write.
    pub exclusive: State,
    /// What a new texture is set to in a device's tracker: see [`TextureTracker`](crate::TextureTracker). No
    /// call does it by itself.
    pub uninitialized: State,
    /// Marks, inside the storage, a texture whose subresources differ.
    pub complex: State,
    /// What a subresource of such a texture reads as while nothing is known of it.
    pub unknown: State,
}

/// How many mips and layers a texture has.
#[derive(Clone, Copy, Debug, PartialEq, Eq, Hash)]
pub struct Extent {
    /// 1 to 16.
    pub mips: u32,
    /// 1 to 256.
    pub layers: u32,
}

impl Extent {
    /// An extent of that many mips, then that many layers.
    #[must_use]
    pub const fn new(mips: u32, layers: u32) -> Self {
        Self { mips, layers }
    }

    /// All mips and layers: wgpu-core's `full_range`.
    #[must_use]
    pub const fn full_range(self) -> Selector {
        Selector {
            mips: Span { start: Mip(0), end: Mip(self.mips) },
            layers: Span { start: Layer(0), end: Layer(self.layers) },
        }
    }
}

/// A texture as the tracker sees it: where it stands in the sets, and how large it is.
#[derive(Clone, Copy, Debug, PartialEq, Eq, Hash)]
pub struct Texture {
    /// Its position in every set.
    pub index: TrackerIndex,
    /// Its mips and layers.
    pub extent: Extent,
}

impl Texture {
    /// The texture of that index and extent.
    #[must_use]
    pub const fn new(index: TrackerIndex, extent: Extent) -> Self {
        Self { index, extent }
    }
}

/// Mips, or layers, that follow each other; the end is not included. It is made from a range, or from one of them.
///
/// The standard library's `Range` cannot be copied; this can.
///
/// ```
/// use texture_tracker::{Layer, Span};
/// let cameras = Span::from(Layer(1)..Layer(3));
/// assert_eq!(cameras, Span::from(Layer(1)..=Layer(2)));
/// assert!(cameras.contains(&Layer(2)) && !cameras.contains(&Layer(3)));
/// assert_eq!(Span::from(Layer(5)), Layer(5)..Layer(6));
/// ```
#[derive(Clone, Copy, Debug, PartialEq, Eq, Hash)]
pub struct Span<T> {
    /// The first.
    pub start: T,
    /// The one past the last.
    pub end: T,
}

impl<T: PartialOrd> Span<T> {
    /// Whether this one is among them.
    pub fn contains(&self, one: &T) -> bool {
        self.start <= *one && *one < self.end
    }

    /// Whether there are none: it ends where it starts, or before.
    pub fn is_empty(&self) -> bool {
        self.start >= self.end
    }
}

impl<T> From<Range<T>> for Span<T> {
    fn from(range: Range<T>) -> Self {
        Self { start: range.start, end: range.end }
    }
}

impl<T> From<Span<T>> for Range<T> {
    fn from(span: Span<T>) -> Self {
        span.start..span.end
    }
}

impl<T: PartialEq> PartialEq<Range<T>> for Span<T> {
    fn eq(&self, other: &Range<T>) -> bool {
        self.start == other.start && self.end == other.end
    }
}

/// A number and the span of it alone. Past the largest number there is no end: that span is empty.
macro_rules! number {
    ($number:ident) => {
        impl $number {
            const fn past(self) -> Self {
                Self(self.0.saturating_add(1))
            }
        }

        impl From<$number> for Span<$number> {
            fn from(one: $number) -> Self {
                Self { start: one, end: one.past() }
            }
        }

        impl From<RangeInclusive<$number>> for Span<$number> {
            fn from(range: RangeInclusive<$number>) -> Self {
                Self { start: *range.start(), end: range.end().past() }
            }
        }
    };
}
number!(Mip);
number!(Layer);

/// Some mips and some layers of a texture: wgpu's `TextureSelector`.
///
/// ```
/// use texture_tracker::{Extent, Layer, Mip, Selector};
/// let extent = Extent::new(4, 8);
/// assert_eq!(Selector::new(Mip(0), Layer(1)..Layer(3)).to_string(), "mip 0, layers 1 to 2");
/// assert_eq!(Selector::from((Mip(0)..=Mip(1), Layer(5))).to_string(), "mips 0 to 1, layer 5");
/// assert_eq!(Selector::one(Mip(0), Layer(5)).to_string(), "mip 0, layer 5");
/// assert_eq!(Selector::mip(Mip(2), extent).to_string(), "mip 2, layers 0 to 7");
/// assert_eq!(Selector::layer(Layer(5), extent).to_string(), "mips 0 to 3, layer 5");
/// assert_eq!(extent.full_range().to_string(), "mips 0 to 3, layers 0 to 7");
/// ```
///
/// Mips and layers are types of their own, so that the one is not taken for the other:
///
/// ```compile_fail,E0277
/// # use texture_tracker::{Layer, Mip, Selector};
/// let swapped = Selector::new(Layer(5), Mip(0));
/// ```
#[derive(Clone, Copy, Debug, PartialEq, Eq, Hash)]
pub struct Selector {
    /// Which mips.
    pub mips: Span<Mip>,
    /// Which layers.
    pub layers: Span<Layer>,
}

impl Selector {
    /// These mips of these layers, each one number or a range.
    pub fn new(mips: impl Into<Span<Mip>>, layers: impl Into<Span<Layer>>) -> Self {
        Self { mips: mips.into(), layers: layers.into() }
    }

    /// One subresource. At the largest number it is empty.
    #[must_use]
    pub const fn one(mip: Mip, layer: Layer) -> Self {
        Self { mips: Span { start: mip, end: mip.past() }, layers: Span { start: layer, end: layer.past() } }
    }

    /// One mip of every layer of a texture of that extent.
    #[must_use]
    pub const fn mip(mip: Mip, extent: Extent) -> Self {
        Self { mips: Span { start: mip, end: mip.past() }, layers: extent.full_range().layers }
    }

    /// Every mip of one layer of a texture of that extent.
    #[must_use]
    pub const fn layer(layer: Layer, extent: Extent) -> Self {
        Self { mips: extent.full_range().mips, layers: Span { start: layer, end: layer.past() } }
    }

    /// Whether a subresource is among these.
    #[must_use]
    pub fn contains(&self, mip: Mip, layer: Layer) -> bool {
        self.mips.contains(&mip) && self.layers.contains(&layer)
    }
}

impl<M: Into<Span<Mip>>, L: Into<Span<Layer>>> From<(M, L)> for Selector {
    fn from((mips, layers): (M, L)) -> Self {
        Self::new(mips, layers)
    }
}

/// Mips, then layers, the last one included, as one speaks of cameras.
impl fmt::Display for Selector {
    fn fmt(&self, f: &mut fmt::Formatter<'_>) -> fmt::Result {
        span(f, "mip", self.mips.start.0, self.mips.end.0)?;
        f.write_str(", ")?;
        span(f, "layer", self.layers.start.0, self.layers.end.0)
    }
}

pub(crate) fn span(f: &mut fmt::Formatter<'_>, word: &str, start: u32, end: u32) -> fmt::Result {
    match end.checked_sub(start) {
        None | Some(0) => write!(f, "no {word} ({start}..{end})"),
        Some(1) => write!(f, "{word} {start}"),
        Some(_) => write!(f, "{word}s {start} to {}", end - 1),
    }
}
