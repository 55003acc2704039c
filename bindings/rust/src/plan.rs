//! Frame plans: the uses of a frame in groups, and the files that they are read from and written to.
use crate::{
    errors::{naming, passed, Refusal, Written},
    state::State,
    storage::{self, Item, CLOSED, OPENED, USE},
    sys::{self, CountedAnswer},
    values::{Extent, Selector, Texture},
};
use alloc::{string::String, vec::Vec};
use core::{error::Error, fmt, slice};

/// One use of a texture: the arguments of a merge as a value. [`UsageScope::merge_use`](crate::UsageScope::merge_use)
/// merges it.
///
/// ```
/// use texture_tracker::*;
/// let beans = Texture::new(TrackerIndex(0), Extent::new(4, 8));
/// let copy = Use::new(beans, Selector::one(Mip(0), Layer(5)), uses::COPY_DST);
/// assert_eq!(format!("{copy:#}"), "texture 0 (4 mips, 8 layers), mip 0, layer 5: COPY_DST");
/// let read = Use::whole(beans, uses::RESOURCE);
/// assert_eq!(read.to_string(), "texture 0 (4 mips, 8 layers), mips 0 to 3, layers 0 to 7: 16");
/// ```
#[derive(Clone, Copy, Debug, PartialEq, Eq, Hash)]
pub struct Use {
    /// The texture.
    pub texture: Texture,
    /// Its mips and layers that are used.
    pub selector: Selector,
    /// What they are used as.
    pub state: State,
}

impl Use {
    /// The use of these mips and layers of a texture.
    #[must_use]
    pub const fn new(texture: Texture, selector: Selector, state: State) -> Self {
        Self { texture, selector, state }
    }

    /// The use of all of a texture.
    #[must_use]
    pub const fn whole(texture: Texture, state: State) -> Self {
        Self { texture, selector: texture.extent.full_range(), state }
    }

    /// The same in words, with a name for the state.
    ///
    /// ```
    /// use texture_tracker::{uses, Extent, Texture, TrackerIndex, Use};
    /// let read = Use::whole(Texture::new(TrackerIndex(0), Extent::new(1, 8)), uses::RESOURCE);
    /// assert_eq!(read.named(uses::name).to_string(), "texture 0 (1 mip, 8 layers), mip 0, layers 0 to 7: RESOURCE");
    /// ```
    pub fn named<'a, N: Fn(State) -> String + 'a>(&'a self, naming: N) -> impl fmt::Display + 'a {
        Written(move |f: &mut fmt::Formatter<'_>| {
            let Texture { index, extent: Extent { mips, layers } } = self.texture;
            let plural = |count| if count == 1 { "" } else { "s" };
            write!(f, "texture {} ({mips} mip{}, {layers} layer{})", index.0, plural(mips), plural(layers))?;
            write!(f, ", {}: {}", self.selector, naming(self.state))
        })
    }
}

/// With the number of the state; with `{:#}` with wgpu's names.
impl fmt::Display for Use {
    fn fmt(&self, f: &mut fmt::Formatter<'_>) -> fmt::Result {
        self.named(naming(f)).fmt(f)
    }
}

/// An item of a [`Plan`]: a group begins, a use, a group ends.
#[derive(Clone, Copy, Debug, PartialEq, Eq, Hash)]
pub enum PlanItem {
    /// A group begins, and holds what follows up to its end.
    Opened,
    /// A use.
    Use(Use),
    /// The group ends that was opened last and is still open.
    Closed,
}

impl PlanItem {
    /// Whether an item is a use, and its numbers, the library says.
    fn of(item: &Item) -> Self {
        let mut numbers = [0; USE];
        match sys::plan_uses(slice::from_ref(item), &mut numbers).count {
            0 if *item == OPENED => Self::Opened,
            0 => Self::Closed,
            _ => Self::Use(storage::one_use(numbers)),
        }
    }
}

/// How an item is written in a [`Plan`]'s lines: `group {`, a use, `}`.
impl fmt::Display for PlanItem {
    fn fmt(&self, f: &mut fmt::Formatter<'_>) -> fmt::Result {
        match self {
            Self::Opened => f.write_str("group {"),
            Self::Use(one) => one.fmt(f),
            Self::Closed => f.write_str("}"),
        }
    }
}

/// A frame plan: uses of textures, in groups that may stand in each other, as a file keeps them.
///
/// ```
/// use texture_tracker::*;
/// # fn main() -> Result<(), Box<dyn std::error::Error>> {
/// let beans = Texture::new(TrackerIndex(0), Extent::new(1, 8));
/// let mut plan = Plan::new();
/// plan.open_group();
/// plan.push(Use::whole(beans, uses::COPY_DST))?;                               // the pictures are copied in
/// plan.close_group();
/// plan.open_group();
/// plan.push(Use::whole(beans, uses::RESOURCE))?;                               // the classifier reads them all
/// plan.close_group();
/// let file = plan.write()?;
///
/// let plan = Plan::read(&file)?;
/// assert_eq!(format!("{plan:#}"), "\
/// group {
///     texture 0 (1 mip, 8 layers), mip 0, layers 0 to 7: COPY_DST
/// }
/// group {
///     texture 0 (1 mip, 8 layers), mip 0, layers 0 to 7: RESOURCE
/// }");
/// # Ok(())
/// # }
/// ```
///
/// What a group stands for is the program's to say. Here it is a pass:
///
/// ```
/// # use texture_tracker::*;
/// # fn main() -> Result<(), Box<dyn std::error::Error>> {
/// # let beans = Texture::new(TrackerIndex(0), Extent::new(1, 8));
/// # let mut plan = Plan::new();
/// # for state in [uses::COPY_DST, uses::RESOURCE] {
/// #     plan.open_group();
/// #     plan.push(Use::whole(beans, state))?;
/// #     plan.close_group();
/// # }
/// # let mut device = TextureTracker::open(1, beans.extent, uses::FLAGS, uses::ORDERED)?;
/// # let mut pass = UsageScope::open(1, beans.extent, uses::FLAGS)?;
/// # let mut log = TransitionLog::with_room_for(1, beans.extent);
/// for item in &plan {
///     match item {
///         PlanItem::Opened => pass.clear(),
///         PlanItem::Use(one) => pass.merge_use(one)?,
///         PlanItem::Closed => device.set_from_usage_scope(&pass, &mut log)?,
///     }
/// }
/// # assert_eq!(log.len(), 1);
/// # Ok(())
/// # }
/// ```
///
/// A plan judges no use: it may have one of mips that no texture has, and the merge then refuses it.
///
/// # The file
///
/// A file is a run of fields. A field is a tag of one byte, a length of two, and so many bytes; every number is written
/// low byte first.
///
/// | tag | what it is | its bytes |
/// |---|---|---|
/// | 1 | a group | fields; the length is that of all of them |
/// | 2 | a use | 15: index 4, mips 1, layers 2, mip start 1, mip end 1, layer start 2, layer end 2, state 2 |
///
/// Uses may stand outside groups. Groups stand up to eight deep; one that stands alone is one deep. The empty file is the
/// plan without any item.
///
/// A file that is read, and written again, is the same bytes; a plan that is written, and read again, is equal to the
/// first. Two plans are equal if they have the same items.
///
/// # Memory
///
/// A plan has 16 bytes for each item, and grows as a `Vec` does. Reading takes up to eleven times the length of the file,
/// and gives back what it does not need.
#[derive(Clone, Default, PartialEq, Eq, Hash)]
pub struct Plan {
    // Items are of the library and of this crate alone, so an opened or closed one is 0 after its kind, and items are
    // equal where their bytes are.
    pub(crate) items: Vec<Item>,
}

impl Plan {
    /// A plan without any item.
    #[must_use]
    pub const fn new() -> Self {
        Self { items: Vec::new() }
    }

    /// Reads a plan from the bytes of a file.
    ///
    /// # Errors
    ///
    /// At the first field where one of these fits, in this order: [`FieldCutShort`](Refusal::FieldCutShort),
    /// [`UnknownTag`](Refusal::UnknownTag), [`UseOfWrongSize`](Refusal::UseOfWrongSize),
    /// [`GroupsTooDeep`](Refusal::GroupsTooDeep).
    pub fn read(file: &[u8]) -> Result<Self, Refusal> {
        let mut items = storage::room_for_items(file.len());
        let count = counted(sys::read_plan(file, &mut items))?;
        items.truncate(count);
        items.shrink_to_fit();
        Ok(Self { items })
    }

    /// Writes the plan: returns the bytes of a file.
    ///
    /// # Errors
    ///
    /// The first of these that holds of the plan: [`PlanUnbalanced`](Refusal::PlanUnbalanced),
    /// [`GroupsTooDeep`](Refusal::GroupsTooDeep), [`GroupTooLong`](Refusal::GroupTooLong).
    pub fn write(&self) -> Result<Vec<u8>, Refusal> {
        let mut file = storage::room_for_file(self.len());
        let count = counted(sys::write_plan(&self.items, &mut file))?;
        file.truncate(count);
        file.shrink_to_fit();
        Ok(file)
    }

    /// Opens a group, inside the one that is open. How deep groups stand is checked when the plan is written.
    pub fn open_group(&mut self) {
        self.items.push(OPENED);
    }

    /// Closes the group that was opened last and is still open. That there is one is checked when the plan is written.
    pub fn close_group(&mut self) {
        self.items.push(CLOSED);
    }

    /// Adds a use: to the group that was opened last and is still open, or outside of all groups.
    ///
    /// # Errors
    ///
    /// [`NumberTooLarge`], before any change, if a number of the use has no room in a file.
    pub fn push(&mut self, one: Use) -> Result<(), NumberTooLarge> {
        self.items.push(storage::item(one)?);
        Ok(())
    }

    /// How many items there are.
    #[must_use]
    pub fn len(&self) -> usize {
        self.items.len()
    }

    /// Whether there is no item.
    #[must_use]
    pub fn is_empty(&self) -> bool {
        self.items.is_empty()
    }

    /// The items, in their order.
    #[must_use]
    pub fn iter(&self) -> PlanItems<'_> {
        PlanItems { items: self.items.iter() }
    }

    /// The uses, in their order, whatever groups they are in.
    pub fn uses(&self) -> impl Iterator<Item = Use> + Clone + '_ {
        self.iter().filter_map(|item| match item {
            PlanItem::Use(one) => Some(one),
            PlanItem::Opened | PlanItem::Closed => None,
        })
    }
}

fn counted(CountedAnswer { answer, count }: CountedAnswer) -> Result<usize, Refusal> {
    passed(answer)?;
    Ok(count)
}

/// A line for each item, those of a group further in. With the numbers of the states; with `{:#}` with wgpu's names.
impl fmt::Display for Plan {
    fn fmt(&self, f: &mut fmt::Formatter<'_>) -> fmt::Result {
        let mut depth = 0_usize;
        for (at, item) in self.iter().enumerate() {
            if item == PlanItem::Closed {
                depth = depth.saturating_sub(1);
            }
            f.write_str(if at == 0 { "" } else { "\n" })?;
            // No plan that is written is deeper than eight.
            (0..depth.min(8)).try_for_each(|_| f.write_str("    "))?;
            item.fmt(f)?;
            if item == PlanItem::Opened {
                depth += 1;
            }
        }
        Ok(())
    }
}

/// The items; with `{:#?}` the lines of `{:#}`, if there are any.
impl fmt::Debug for Plan {
    fn fmt(&self, f: &mut fmt::Formatter<'_>) -> fmt::Result {
        if f.alternate() && !self.is_empty() {
            fmt::Display::fmt(self, f)
        } else {
            f.debug_list().entries(self).finish()
        }
    }
}

impl<'a> IntoIterator for &'a Plan {
    type Item = PlanItem;
    type IntoIter = PlanItems<'a>;

    fn into_iter(self) -> PlanItems<'a> {
        self.iter()
    }
}

/// The items of a [`Plan`], in their order.
#[derive(Clone, Debug)]
pub struct PlanItems<'a> {
    items: slice::Iter<'a, Item>,
}

impl Iterator for PlanItems<'_> {
    type Item = PlanItem;

    fn next(&mut self) -> Option<PlanItem> {
        self.items.next().map(PlanItem::of)
    }

    fn size_hint(&self) -> (usize, Option<usize>) {
        self.items.size_hint()
    }
}

impl ExactSizeIterator for PlanItems<'_> {}

/// A number of a use that has no room in a [`Plan`]: a number of mips, or where they start or end, above 255; or one of
/// layers above 65,535. A use that any set takes has room: it has at most 16 mips and 256 layers.
///
/// ```
/// use texture_tracker::*;
/// let beans = Texture::new(TrackerIndex(0), Extent::new(4, 8));
/// let late = Use::new(beans, Selector::new(Mip(0), Layer(0)..Layer(65_536)), uses::RESOURCE);
/// let said = Plan::new().push(late).unwrap_err();
/// assert_eq!(said.to_string(), "layer end 65536 does not fit into a plan, where it is at most 65535");
/// assert_eq!((said.name(), said.number(), said.most()), ("layer end", 65_536, 65_535));
/// ```
#[derive(Clone, Copy, Debug, PartialEq, Eq, Hash)]
pub struct NumberTooLarge {
    name: &'static str,
    number: u32,
    most: u32,
}

impl NumberTooLarge {
    pub(crate) const fn new(name: &'static str, number: u32, most: u32) -> Self {
        Self { name, number, most }
    }

    /// Which number it is: `mip count`, `layer count`, `mip start`, `mip end`, `layer start` or `layer end`.
    #[must_use]
    pub const fn name(&self) -> &'static str {
        self.name
    }

    /// The number.
    #[must_use]
    pub const fn number(&self) -> u32 {
        self.number
    }

    /// The largest that it may be.
    #[must_use]
    pub const fn most(&self) -> u32 {
        self.most
    }
}

impl fmt::Display for NumberTooLarge {
    fn fmt(&self, f: &mut fmt::Formatter<'_>) -> fmt::Result {
        let Self { name, number, most } = self;
        write!(f, "{name} {number} does not fit into a plan, where it is at most {most}")
    }
}

impl Error for NumberTooLarge {}
