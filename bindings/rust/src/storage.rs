//! The numbers that the proved library borrows, and their layout, which nothing else in this crate knows.
//! It is the layout of crate `set_storage` of the repository, and for plans of its crate `plan_file`:
//!
//! ```text
//! table    0 N   1 M   2 W   3 EXCLUSIVE   4 UNINITIALIZED   5 COMPLEX   6 UNKNOWN   7 ordered mask (a tracker's)
//!          OWNED + i    0 if index i is not owned
//!          MIPS + i     its mips            LAYERS + i   its layers
//!          half h (START: a scope's states, or a tracker's start; END: a tracker's end)
//!            h + i                     the state where index i is Single, COMPLEX where it is Many
//!            h + COUNTS + 16 i + m     how many ranges its mip m has
//! ranges   three numbers a range (start, end, state); those of (i, m) begin at 3 W (i M + m), with room for W
//! log      seven numbers an entry: index, mip start, mip end, layer start, layer end, old state, new state
//! uses     eight numbers a use: index, mips, layers, mip start, mip end, layer start, layer end, state
//! items    16 bytes an item of a plan: the kind (1 opened, 2 use, 3 closed), then 0, or the numbers of the use, low
//!          byte first, in 4, 1, 2, 1, 1, 2, 2 and 2 bytes
//! ```
//!
//! The library alone writes here, but for the items of a plan, which this crate makes too. Reading takes any numbers:
//! what is not there reads as zero, or as no ranges.
use crate::{
    plan::{NumberTooLarge, Use},
    state::State,
    values::{Extent, Layer, Mip, Selector, Span, Texture, TrackerIndex, UsageFlags},
};
use alloc::{boxed::Box, vec, vec::Vec};
use core::ops::Range;

pub(crate) const TABLE: usize = 2376;
pub(crate) type Table = [u32; TABLE];

const OWNED: usize = 8;
const MIPS: usize = 72;
const LAYERS: usize = 136;
const START: usize = 200;
const END: usize = 1288;
const COUNTS: usize = 64;
const MOST_MIPS: usize = 16;
/// Numbers of a range, and of a log entry.
const RANGE: usize = 3;
pub(crate) const ENTRY: usize = 7;

/// Numbers of a use, in a list of uses.
pub(crate) const USE: usize = 8;

/// An item of a plan.
pub(crate) type Item = [u8; 16];
pub(crate) const OPENED: Item = bare(1);
pub(crate) const CLOSED: Item = bare(3);
/// What the numbers of a use are called, and how many bytes each has in an item.
const BYTES: [(&str, usize); USE] = [
    ("index", 4),
    ("mip count", 1),
    ("layer count", 2),
    ("mip start", 1),
    ("mip end", 1),
    ("layer start", 2),
    ("layer end", 2),
    ("state", 2),
];

/// The largest set that can be opened.
const MOST_TEXTURES: u32 = 64;
pub(crate) const MOST: Extent = Extent { mips: 16, layers: 256 };

/// What a set is opened with. It stands beside the table, so that a set can be opened again whatever the table holds.
#[derive(Clone, Copy, Debug, PartialEq, Eq)]
pub(crate) struct Opening {
    pub textures: u32,
    pub largest: Extent,
    pub flags: UsageFlags,
    /// A tracker's; a scope has none.
    pub ordered: State,
}

impl Opening {
    /// How many numbers of ranges a half of the set needs.
    pub fn room(self) -> usize {
        RANGE * subresources(self.textures, self.largest)
    }
}

#[derive(Clone)]
pub(crate) struct ScopeStorage {
    pub opening: Opening,
    pub table: Box<Table>,
    pub ranges: Vec<u32>,
}

#[derive(Clone)]
pub(crate) struct TrackerStorage {
    pub opening: Opening,
    pub table: Box<Table>,
    pub starts: Vec<u32>,
    pub ends: Vec<u32>,
}

/// Entries, and how many of them are written and how many after those are free.
#[derive(Clone)]
pub(crate) struct LogStorage {
    pub entries: Vec<u32>,
    pub written: usize,
    pub free: usize,
}

/// Which states of a texture: a scope has one half, a tracker two.
#[derive(Clone, Copy)]
pub(crate) enum Half {
    Start,
    End,
}

/// How many subresources that many textures have. A number past its limit counts as the limit: opening is refused
/// there, whatever memory there is.
pub(crate) fn subresources(textures: u32, largest: Extent) -> usize {
    let textures = textures.min(MOST_TEXTURES) as usize;
    let mips = largest.mips.min(MOST.mips) as usize;
    let layers = largest.layers.min(MOST.layers) as usize;
    textures * mips * layers
}

impl ScopeStorage {
    /// Room for a scope that is not yet opened.
    pub fn new(opening: Opening) -> Self {
        Self { opening, table: Box::new([0; TABLE]), ranges: vec![0; opening.room()] }
    }
}

impl TrackerStorage {
    /// Room for a tracker that is not yet opened.
    pub fn new(opening: Opening) -> Self {
        let room = opening.room();
        Self { opening, table: Box::new([0; TABLE]), starts: vec![0; room], ends: vec![0; room] }
    }
}

impl LogStorage {
    pub fn new(entries: usize) -> Self {
        Self { entries: vec![0; ENTRY * entries], written: 0, free: entries }
    }

    /// Every entry is free.
    pub fn empty(&mut self) {
        (self.written, self.free) = (0, self.entries.len() / ENTRY);
    }

    /// The numbers of the first `count` entries, or of as many as there are.
    pub fn first(&self, count: usize) -> &[u32] {
        let there = self.entries.len() / ENTRY;
        self.entries.get(..ENTRY * count.min(there)).unwrap_or_default()
    }

    /// The numbers of the entries that are written.
    pub fn told(&self) -> &[u32] {
        self.first(self.written)
    }
}

/// An entry of the log as values: what moved, and its old and new state.
pub(crate) fn entry(numbers: &[u32]) -> (TrackerIndex, Selector, State, State) {
    let number = |at: usize| numbers.get(at).copied().unwrap_or(0);
    let selector = Selector::new(Mip(number(1))..Mip(number(2)), Layer(number(3))..Layer(number(4)));
    (TrackerIndex(number(0)), selector, state(number(5)), state(number(6)))
}

/// An item that is a kind alone.
const fn bare(kind: u8) -> Item {
    let mut item = [0; 16];
    item[0] = kind;
    item
}

/// Room for the items of any file of so many bytes: a field has three or more, and makes two items at most.
pub(crate) fn room_for_items(bytes: usize) -> Vec<Item> {
    vec![[0; 16]; 2 * (bytes / 3)]
}

/// Room for the file of any so many items: none makes more bytes than a use, which makes 18.
pub(crate) fn room_for_file(items: usize) -> Vec<u8> {
    vec![0; 18 * items]
}

/// A use as an item of a plan; or the first of its numbers that its bytes there cannot hold.
pub(crate) fn item(one: Use) -> Result<Item, NumberTooLarge> {
    let mut item = bare(2);
    let mut from = 1;
    for ((name, bytes), number) in BYTES.into_iter().zip(numbers(one)) {
        let most = u32::MAX >> (u32::BITS as usize - 8 * bytes);
        if number > most {
            return Err(NumberTooLarge::new(name, number, most));
        }
        item[from..from + bytes].copy_from_slice(&number.to_le_bytes()[..bytes]);
        from += bytes;
    }
    Ok(item)
}

/// The numbers of a use, as in a list of uses.
pub(crate) fn numbers(one: Use) -> [u32; USE] {
    let Use { texture: Texture { index, extent }, selector: Selector { mips, layers }, state } = one;
    let [mip_start, mip_end] = [mips.start.0, mips.end.0];
    let [layer_start, layer_end] = [layers.start.0, layers.end.0];
    [index.0, extent.mips, extent.layers, mip_start, mip_end, layer_start, layer_end, state.0.into()]
}

/// The numbers of a use as values.
pub(crate) fn one_use(numbers: [u32; USE]) -> Use {
    let [index, mips, layers, mip_start, mip_end, layer_start, layer_end, held] = numbers;
    Use {
        texture: Texture::new(TrackerIndex(index), Extent::new(mips, layers)),
        selector: Selector::new(Mip(mip_start)..Mip(mip_end), Layer(layer_start)..Layer(layer_end)),
        state: state(held),
    }
}

/// A state is 16 bits: the library keeps no larger one. Of a damaged one the lower bits are read.
#[allow(clippy::cast_possible_truncation)]
pub(crate) fn state(number: u32) -> State {
    State(number as u16)
}

fn number(table: &Table, at: usize) -> u32 {
    table.get(at).copied().unwrap_or(0)
}

/// The opening numbers in a table: how many textures, and the largest extent.
fn opened_for(table: &Table) -> (u32, Extent) {
    let largest = Extent { mips: number(table, 1), layers: number(table, 2) };
    (number(table, 0), largest)
}

fn flags(table: &Table) -> UsageFlags {
    UsageFlags {
        exclusive: state(number(table, 3)),
        uninitialized: state(number(table, 4)),
        complex: state(number(table, 5)),
        unknown: state(number(table, 6)),
    }
}

fn owns(table: &Table, index: TrackerIndex) -> bool {
    let (textures, _) = opened_for(table);
    index.0 < textures.min(MOST_TEXTURES) && number(table, OWNED + index.0 as usize) != 0
}

/// Every owned index, ascending.
pub(crate) fn owned(table: &Table) -> impl Iterator<Item = TrackerIndex> + Clone + '_ {
    (0..MOST_TEXTURES).map(TrackerIndex).filter(|&index| owns(table, index))
}

/// One half of an owned texture.
#[derive(Clone, Copy)]
pub(crate) struct Held<'a> {
    table: &'a Table,
    ranges: &'a [u32],
    half: usize,
    index: u32,
}

impl<'a> Held<'a> {
    /// None if the index is not owned.
    pub fn of(table: &'a Table, ranges: &'a [u32], half: Half, index: TrackerIndex) -> Option<Self> {
        let half = match half {
            Half::Start => START,
            Half::End => END,
        };
        owns(table, index).then_some(Self { table, ranges, half, index: index.0 })
    }

    pub fn index(&self) -> TrackerIndex {
        TrackerIndex(self.index)
    }

    fn number(&self, from: usize) -> u32 {
        number(self.table, from + self.index as usize)
    }

    pub fn flags(&self) -> UsageFlags {
        flags(self.table)
    }

    pub fn extent(&self) -> Extent {
        Extent { mips: self.number(MIPS), layers: self.number(LAYERS) }
    }

    /// The mips that a Many texture has ranges for: at most as many as there are counts of them.
    pub fn mips(&self) -> Range<u32> {
        0..self.extent().mips.min(MOST.mips)
    }

    /// The one state of a Single texture, None where it is Many.
    pub fn single(&self) -> Option<State> {
        let held = state(self.number(self.half));
        (held != self.flags().complex).then_some(held)
    }

    /// The ranges of a mip of a Many texture, in their order. What stands there of a Single one means nothing.
    pub fn ranges(&self, mip: u32) -> impl Iterator<Item = (Span<Layer>, State)> + Clone + 'a {
        let range = |numbers: &[u32]| match *numbers {
            [start, end, held] => (Span::from(Layer(start)..Layer(end)), state(held)),
            _ => (Span::from(Layer(0)..Layer(0)), State(0)),
        };
        self.records(mip).unwrap_or_default().chunks_exact(RANGE).map(range)
    }

    fn records(&self, mip: u32) -> Option<&'a [u32]> {
        let (_, largest) = opened_for(self.table);
        if self.single().is_some() || !self.mips().contains(&mip) {
            return None;
        }
        let (index, mip) = (self.index as usize, mip as usize);
        let count = number(self.table, self.half + COUNTS + MOST_MIPS * index + mip) as usize;
        let run = (index * largest.mips as usize + mip).checked_mul(RANGE * largest.layers as usize)?;
        self.ranges.get(run..)?.get(..RANGE * count)
    }
}
