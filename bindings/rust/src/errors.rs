//! Why a call did not do what it was asked: refused, or a conflict of two uses.
use crate::{
    state::State,
    storage::state,
    sys::Answer,
    uses,
    values::{Layer, Mip, Selector, Span, TrackerIndex},
};
use alloc::string::{String, ToString};
use core::{error::Error, fmt};

/// A call that was refused. Everything that it borrowed is as it was before.
///
/// There is one case for each number of the table of refusals (`docs/RULES.md` of the repository), in the order of the
/// checks, those of plans by their number; [`number`](Self::number) returns it. Which calls return which:
///
/// | numbers | returned by |
/// |---|---|
/// | 1, 2 | opening a scope or a tracker |
/// | 6 to 9 | calls that are handed a whole set, or a list of its textures |
/// | 7 to 13, with 16 to 19 in the place of 10 | `merge_single`, `merge_use`, `set_single` |
/// | 31 | [`merge_logs`](crate::merge_logs) |
/// | 20 to 23 | [`Plan::read`](crate::Plan::read) |
/// | 24, then 23 and 25 | [`Plan::write`](crate::Plan::write) |
/// | 15 | calls that write to a log |
/// | 3, 4, 5 | none: this crate provides enough memory, and nobody else writes it |
/// | 10 | none: it is reserved; earlier versions returned it for 16 to 19 |
/// | 14 | none: the calls on ranges alone are not in this crate |
///
/// ```
/// use texture_tracker::{uses, Extent, Refusal, UsageScope};
/// let refused = UsageScope::open(65, Extent::new(1, 1), uses::FLAGS).unwrap_err();
/// assert_eq!(refused, Refusal::NumbersOutOfLimits);
/// assert_eq!(refused.number(), 1);
/// assert_eq!(refused.to_string(), "a set has 1 to 64 textures, 1 to 16 mips and 1 to 256 layers (refusal 1)");
/// ```
///
/// 16 to 19 have the mips or layers of the selector, whose end is not one of them:
///
/// ```
/// use texture_tracker::{uses, Extent, Layer, Mip, Refusal, Selector, Texture, TrackerIndex, UsageScope};
/// # fn main() -> Result<(), Refusal> {
/// let extent = Extent::new(4, 8);
/// let mut scope = UsageScope::open(1, extent, uses::FLAGS)?;
/// let cameras = Selector::new(Mip(0), Layer(7)..Layer(2));
/// let refused = scope.merge_single(Texture::new(TrackerIndex(0), extent), Some(cameras), uses::RESOURCE).unwrap_err();
/// assert_eq!(refused, Refusal::LayersReversed(cameras.layers).into());
/// assert_eq!(refused.to_string(), "layers 7 to 2 are reversed: they end before they start (refusal 19)");
/// # Ok(())
/// # }
/// ```
#[derive(Clone, Copy, Debug, PartialEq, Eq, Hash)]
#[non_exhaustive]
pub enum Refusal {
    /// 1: the number of textures, mips or layers is outside its limits.
    NumbersOutOfLimits,
    /// 2: the usage flags break their rule.
    FlagsBreakRule,
    /// 3: the memory of the set is too small.
    ShortRoom,
    /// 4: a set is not well formed: something else has written its storage.
    NotWellFormed,
    /// 5: the head of the log counts more entries than the log has.
    LogTooShort,
    /// 6: the two sets were opened with different usage flags.
    FlagsDiffer,
    /// 7: the set has no such index.
    NoSuchIndex(TrackerIndex),
    /// 8: the texture has more mips or layers than the set was opened for, or none.
    ExtentOutOfLimits(TrackerIndex),
    /// 9: the set holds this texture with another extent.
    ExtentDiffers(TrackerIndex),
    /// 16: the mips are empty: they end where they start.
    MipsEmpty(Span<Mip>),
    /// 17: the mips are reversed: they end before they start.
    MipsReversed(Span<Mip>),
    /// 18: the layers are empty: they end where they start.
    LayersEmpty(Span<Layer>),
    /// 19: the layers are reversed: they end before they start.
    LayersReversed(Span<Layer>),
    /// 11: the selector ends past the texture's extent.
    SelectorPastExtent,
    /// 12: the state is zero, or has `unknown` or `complex` in it.
    StateReserved,
    /// 13: the state has an exclusive use beside another use.
    StateIncompatible,
    /// 14: the ranges are empty, out of order or overlap.
    RangesOutOfOrder,
    /// 31: a log descends or stops inside an entry.
    LogOutOfOrder,
    /// 20: in a plan file, the tag and length of a field are cut short, or its length goes past its group or the file.
    FieldCutShort,
    /// 21: in a plan file, a field has an unknown tag.
    UnknownTag,
    /// 22: in a plan file, a use does not have 15 bytes.
    UseOfWrongSize,
    /// 23: in a plan, groups stand more than eight deep.
    GroupsTooDeep,
    /// 24: in a plan, a group that is not open is closed, or one is left open. An item of an unknown kind, which has this
    /// number too, is in no [`Plan`](crate::Plan).
    PlanUnbalanced,
    /// 25: in a plan, a group holds more than 65,535 bytes.
    GroupTooLong,
    /// 15: the call needs more log entries, or room for a plan, than are free. A [`Plan`](crate::Plan) has enough.
    NoFreeEntry,
    /// A number that this crate does not know: the library is of another version.
    Unlisted(u32),
}

impl Refusal {
    fn new(number: u32, place: u32) -> Self {
        let index = TrackerIndex(place);
        match number {
            1 => Self::NumbersOutOfLimits,
            2 => Self::FlagsBreakRule,
            3 => Self::ShortRoom,
            4 => Self::NotWellFormed,
            5 => Self::LogTooShort,
            6 => Self::FlagsDiffer,
            7 => Self::NoSuchIndex(index),
            8 => Self::ExtentOutOfLimits(index),
            9 => Self::ExtentDiffers(index),
            11 => Self::SelectorPastExtent,
            12 => Self::StateReserved,
            13 => Self::StateIncompatible,
            14 => Self::RangesOutOfOrder,
            15 => Self::NoFreeEntry,
            20 => Self::FieldCutShort,
            21 => Self::UnknownTag,
            22 => Self::UseOfWrongSize,
            23 => Self::GroupsTooDeep,
            24 => Self::PlanUnbalanced,
            25 => Self::GroupTooLong,
            31 => Self::LogOutOfOrder,
            other => Self::Unlisted(other),
        }
    }

    /// The refusal of a call on a part of a texture: the part may be what is wrong.
    fn of_part(number: u32, place: u32, part: Selector) -> Self {
        match number {
            16 => Self::MipsEmpty(part.mips),
            17 => Self::MipsReversed(part.mips),
            18 => Self::LayersEmpty(part.layers),
            19 => Self::LayersReversed(part.layers),
            _ => Self::new(number, place),
        }
    }

    /// The number in the table of refusals.
    #[must_use]
    pub const fn number(self) -> u32 {
        match self {
            Self::NumbersOutOfLimits => 1,
            Self::FlagsBreakRule => 2,
            Self::ShortRoom => 3,
            Self::NotWellFormed => 4,
            Self::LogTooShort => 5,
            Self::FlagsDiffer => 6,
            Self::NoSuchIndex(_) => 7,
            Self::ExtentOutOfLimits(_) => 8,
            Self::ExtentDiffers(_) => 9,
            Self::MipsEmpty(_) => 16,
            Self::MipsReversed(_) => 17,
            Self::LayersEmpty(_) => 18,
            Self::LayersReversed(_) => 19,
            Self::SelectorPastExtent => 11,
            Self::StateReserved => 12,
            Self::StateIncompatible => 13,
            Self::RangesOutOfOrder => 14,
            Self::LogOutOfOrder => 31,
            Self::FieldCutShort => 20,
            Self::UnknownTag => 21,
            Self::UseOfWrongSize => 22,
            Self::GroupsTooDeep => 23,
            Self::PlanUnbalanced => 24,
            Self::GroupTooLong => 25,
            Self::NoFreeEntry => 15,
            Self::Unlisted(number) => number,
        }
    }

    /// The texture that was refused, for 7 to 9.
    #[must_use]
    pub const fn index(self) -> Option<TrackerIndex> {
        match self {
            Self::NoSuchIndex(index) | Self::ExtentOutOfLimits(index) | Self::ExtentDiffers(index) => Some(index),
            _ => None,
        }
    }

    fn words(self) -> &'static str {
        match self {
            Self::NumbersOutOfLimits => "a set has 1 to 64 textures, 1 to 16 mips and 1 to 256 layers",
            Self::FlagsBreakRule => {
                "uninitialized, complex and unknown must be one bit each, all different, complex and unknown not \
                 in exclusive"
            }
            Self::ShortRoom => "the memory of the set is too small",
            Self::NotWellFormed => "a set is not well formed: something else has written its storage",
            Self::LogTooShort => "the head of the log counts more entries than the log has",
            Self::FlagsDiffer => "the two sets were opened with different usage flags",
            Self::NoSuchIndex(_) => "the set has no such index",
            Self::ExtentOutOfLimits(_) => "it has no mips or layers, or more than the set was opened for",
            Self::ExtentDiffers(_) => "the set holds it with another extent",
            Self::MipsEmpty(_) | Self::LayersEmpty(_) => "are empty: they end where they start",
            Self::MipsReversed(_) | Self::LayersReversed(_) => "are reversed: they end before they start",
            Self::SelectorPastExtent => "the selector ends past the texture's extent",
            Self::StateReserved => "the state is zero, or has unknown or complex in it",
            Self::StateIncompatible => "the state has an exclusive use beside another use",
            Self::RangesOutOfOrder => "the ranges are empty, out of order or overlap",
            Self::LogOutOfOrder => "a log descends or stops inside an entry",
            Self::FieldCutShort => "in a plan file, a field is cut short or goes past its group or the file",
            Self::UnknownTag => "in a plan file, a field has an unknown tag: 1 is a group, 2 is a use",
            Self::UseOfWrongSize => "in a plan file, a use does not have 15 bytes",
            Self::GroupsTooDeep => "in a plan, groups stand more than eight deep",
            Self::PlanUnbalanced => {
                "in a plan, a group that is not open is closed, one is left open, or an item has an unknown kind"
            }
            Self::GroupTooLong => "in a plan, a group holds more than 65,535 bytes",
            Self::NoFreeEntry => "the call needs more log entries, or room for a plan, than are free",
            Self::Unlisted(_) => "the library returns a reason that this crate does not know",
        }
    }
}

impl fmt::Display for Refusal {
    fn fmt(&self, f: &mut fmt::Formatter<'_>) -> fmt::Result {
        match *self {
            Self::NoSuchIndex(index) | Self::ExtentOutOfLimits(index) | Self::ExtentDiffers(index) => {
                write!(f, "texture {}: ", index.0)?;
            }
            Self::MipsEmpty(Span { start, end }) | Self::MipsReversed(Span { start, end }) => {
                write!(f, "mips {} to {} ", start.0, end.0)?;
            }
            Self::LayersEmpty(Span { start, end }) | Self::LayersReversed(Span { start, end }) => {
                write!(f, "layers {} to {} ", start.0, end.0)?;
            }
            _ => {}
        }
        write!(f, "{} (refusal {})", self.words(), self.number())
    }
}

impl Error for Refusal {}

/// Two uses that one subresource cannot have in one usage scope, and where: wgpu-core's
/// `ResourceUsageCompatibilityError`.
#[derive(Clone, Copy, Debug, PartialEq, Eq, Hash)]
pub struct Conflict {
    /// The texture.
    pub index: TrackerIndex,
    /// The mips and layers, from the first subresource in conflict on; others past it may be in conflict as well. Of a
    /// texture that the scope holds in one state it is the part that was given; otherwise it is a range of one mip.
    pub selector: Selector,
    /// What the scope holds there, in all of it.
    pub current_state: State,
    /// What was to be merged into it.
    pub new_state: State,
}

impl Conflict {
    /// The same in words, with names for the states.
    ///
    /// ```
    /// use texture_tracker::{uses, Conflict, Layer, Mip, Selector, TrackerIndex};
    /// let conflict = Conflict {
    ///     index: TrackerIndex(0),
    ///     selector: Selector::one(Mip(0), Layer(5)),
    ///     current_state: uses::RESOURCE,
    ///     new_state: uses::COPY_DST,
    /// };
    /// assert_eq!(
    ///     conflict.named(uses::name).to_string(),
    ///     "texture 0, mip 0, layer 5: in use as RESOURCE, cannot be used as COPY_DST beside it"
    /// );
    /// ```
    pub fn named<'a, N: Fn(State) -> String + 'a>(&'a self, naming: N) -> impl fmt::Display + 'a {
        Written(move |f: &mut fmt::Formatter<'_>| {
            let TrackerIndex(index) = self.index;
            let (current, new) = (naming(self.current_state), naming(self.new_state));
            let selector = &self.selector;
            write!(f, "texture {index}, {selector}: in use as {current}, cannot be used as {new} beside it")
        })
    }
}

/// With the numbers of the states; with `{:#}` with wgpu's names.
impl fmt::Display for Conflict {
    fn fmt(&self, f: &mut fmt::Formatter<'_>) -> fmt::Result {
        self.named(naming(f)).fmt(f)
    }
}

impl Error for Conflict {}

/// Why a merge into a usage scope did not pass.
#[derive(Clone, Copy, Debug, PartialEq, Eq, Hash)]
pub enum MergeError {
    /// The call was refused, and nothing changed.
    Refused(Refusal),
    /// Two uses conflict. What was merged before the conflict stays, as in wgpu-core.
    Conflict(Conflict),
}

impl MergeError {
    /// The same in words, with names for the states of a conflict.
    ///
    /// ```
    /// use texture_tracker::{uses, Extent, Texture, TrackerIndex, UsageScope};
    /// # fn main() -> Result<(), Box<dyn std::error::Error>> {
    /// let cameras = Texture::new(TrackerIndex(0), Extent::new(1, 8));
    /// let mut scope = UsageScope::open(1, cameras.extent, uses::FLAGS)?;
    /// scope.merge_single(cameras, None, uses::RESOURCE)?;
    /// let error = scope.merge_single(cameras, None, uses::COPY_DST).unwrap_err();
    /// let words = "texture 0, mip 0, layers 0 to 7: in use as RESOURCE, cannot be used as COPY_DST beside it";
    /// assert_eq!(error.named(uses::name).to_string(), words);
    /// assert_eq!(format!("{error:#}"), words);
    /// # Ok(())
    /// # }
    /// ```
    pub fn named<'a, N: Fn(State) -> String + 'a>(&'a self, naming: N) -> impl fmt::Display + 'a {
        Written(move |f: &mut fmt::Formatter<'_>| match self {
            Self::Refused(refusal) => write!(f, "{refusal}"),
            Self::Conflict(conflict) => write!(f, "{}", conflict.named(&naming)),
        })
    }
}

/// With the numbers of the states; with `{:#}` with wgpu's names.
impl fmt::Display for MergeError {
    fn fmt(&self, f: &mut fmt::Formatter<'_>) -> fmt::Result {
        self.named(naming(f)).fmt(f)
    }
}

impl Error for MergeError {
    fn source(&self) -> Option<&(dyn Error + 'static)> {
        match self {
            Self::Refused(refusal) => Some(refusal),
            Self::Conflict(conflict) => Some(conflict),
        }
    }
}

impl From<Refusal> for MergeError {
    fn from(refusal: Refusal) -> Self {
        Self::Refused(refusal)
    }
}

impl From<Conflict> for MergeError {
    fn from(conflict: Conflict) -> Self {
        Self::Conflict(conflict)
    }
}

/// What a function writes, as a value that can be shown.
pub(crate) struct Written<F>(pub F);

impl<F: Fn(&mut fmt::Formatter<'_>) -> fmt::Result> fmt::Display for Written<F> {
    fn fmt(&self, f: &mut fmt::Formatter<'_>) -> fmt::Result {
        (self.0)(f)
    }
}

impl<F: Fn(&mut fmt::Formatter<'_>) -> fmt::Result> fmt::Debug for Written<F> {
    fn fmt(&self, f: &mut fmt::Formatter<'_>) -> fmt::Result {
        (self.0)(f)
    }
}

/// How the form that is asked for writes a state: `{}` its number, `{:#}` wgpu's names.
pub(crate) fn naming(f: &fmt::Formatter<'_>) -> fn(State) -> String {
    if f.alternate() {
        uses::name
    } else {
        |state| state.to_string()
    }
}

/// What a call returns that may meet a conflict.
pub(crate) fn merged(answer: Answer) -> Result<(), MergeError> {
    match answer.kind {
        2 => Err(conflict(answer).into()),
        _ => Ok(passed(answer)?),
    }
}

/// The same of a call on a part of a texture.
pub(crate) fn merged_part(answer: Answer, part: Selector) -> Result<(), MergeError> {
    match answer.kind {
        2 => Err(conflict(answer).into()),
        _ => Ok(passed_part(answer, part)?),
    }
}

/// What a call returns that meets no conflict: any but a merge.
pub(crate) fn passed(answer: Answer) -> Result<(), Refusal> {
    match answer.kind {
        0 => Ok(()),
        _ => Err(Refusal::new(answer.number, answer.place)),
    }
}

/// The same of a call on a part of a texture.
pub(crate) fn passed_part(answer: Answer, part: Selector) -> Result<(), Refusal> {
    match answer.kind {
        0 => Ok(()),
        _ => Err(Refusal::of_part(answer.number, answer.place, part)),
    }
}

fn conflict(answer: Answer) -> Conflict {
    Conflict {
        index: TrackerIndex(answer.index),
        selector: Selector::new(
            Mip(answer.mip_start)..Mip(answer.mip_end),
            Layer(answer.layer_start)..Layer(answer.layer_end),
        ),
        current_state: state(answer.old_state),
        new_state: state(answer.new_state),
    }
}
