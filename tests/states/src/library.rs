//! The library's calls that are compared, over the memory of one set, whose every number is at hand so that any can be put there.
//! include/track.h has the calls, crates/set_storage the layout.
use crate::case::Flags;

const TABLE: usize = 2376;
pub const FLAGS: usize = 3;
pub const OWNED: usize = 8;
pub const MIPS: usize = 72;
pub const LAYERS: usize = 136;
pub const START: usize = 200;
pub const END: usize = 1288;
pub const COUNTS: usize = 64;

pub const DONE: u32 = 0;
pub const REFUSED: u32 = 1;
pub const CONFLICT: u32 = 2;

#[repr(C)]
#[derive(Clone, Copy)]
pub struct Answer {
    pub kind: u32,
    pub number: u32,
    _place: [u32; 6],
    pub old_state: u32,
    pub new_state: u32,
}

#[repr(C)]
struct LoggedAnswer {
    answer: Answer,
    _head: [usize; 2],
}

type Table = [u32; TABLE];

#[rustfmt::skip]
extern "C" {
    fn track_open_scope(table: *mut Table, ranges: *const u32, ranges_len: usize, n: u32, m: u32, w: u32, exclusive: u32,
        uninitialized: u32, complex: u32, unknown: u32) -> Answer;
    fn track_open_tracker(table: *mut Table, starts: *const u32, starts_len: usize, ends: *const u32, ends_len: usize, n: u32, m: u32,
        w: u32, exclusive: u32, uninitialized: u32, complex: u32, unknown: u32, mask: u16) -> Answer;
    fn track_merge_single(table: *mut Table, ranges: *mut u32, ranges_len: usize, index: u32, mips: u32, layers: u32, part: u32,
        mip_start: u32, mip_end: u32, layer_start: u32, layer_end: u32, state: u16) -> Answer;
    fn track_set_single(table: *mut Table, starts: *mut u32, starts_len: usize, ends: *mut u32, ends_len: usize, index: u32, mips: u32,
        layers: u32, mip_start: u32, mip_end: u32, layer_start: u32, layer_end: u32, state: u16, log: *mut u32, log_len: usize,
        written: usize, free: usize) -> LoggedAnswer;
    fn track_scope_is_well_formed(table: *const Table, ranges: *const u32, ranges_len: usize) -> u32;
    fn track_tracker_is_well_formed(table: *const Table, starts: *const u32, starts_len: usize, ends: *const u32, ends_len: usize)
        -> u32;
}

/// The memory of a tracker; a scope is its first half.
pub struct Set {
    pub table: Box<Table>,
    pub starts: Vec<u32>,
    pub ends: Vec<u32>,
    textures: u32,
    mips: u32,
    layers: u32,
}

impl Set {
    pub fn new(textures: u32, mips: u32, layers: u32) -> Self {
        let ranges = vec![0; (3 * textures * mips * layers) as usize];
        Self { table: Box::new([0; TABLE]), starts: ranges.clone(), ends: ranges, textures, mips, layers }
    }

    /// An opened tracker. If these flags are refused, which they should not be, it is not well formed.
    pub fn tracker(textures: u32, mips: u32, layers: u32, flags: Flags) -> Self {
        let mut set = Self::new(textures, mips, layers);
        set.open_tracker(flags);
        set
    }

    pub fn open_scope(&mut self, flags: Flags) -> Answer {
        let (table, ranges) = (&mut *self.table, &self.starts);
        let [exclusive, uninitialized, complex, unknown] = flags.words();
        unsafe {
            track_open_scope(
                table, ranges.as_ptr(), ranges.len(), self.textures, self.mips, self.layers, exclusive, uninitialized, complex, unknown,
            )
        }
    }

    pub fn open_tracker(&mut self, flags: Flags) -> Answer {
        let (table, starts, ends) = (&mut *self.table, &self.starts, &self.ends);
        let [exclusive, uninitialized, complex, unknown] = flags.words();
        unsafe {
            track_open_tracker(
                table, starts.as_ptr(), starts.len(), ends.as_ptr(), ends.len(), self.textures, self.mips, self.layers,
                exclusive, uninitialized, complex, unknown, 0,
            )
        }
    }

    /// Merges a use of texture 0: of all of it, or of one layer of its first mip.
    pub fn merge_single(&mut self, layer: Option<u32>, state: u16) -> Answer {
        let (table, ranges) = (&mut *self.table, &mut self.starts);
        let (part, from) = layer.map_or((0, 0), |layer| (1, layer));
        unsafe {
            track_merge_single(table, ranges.as_mut_ptr(), ranges.len(), 0, self.mips, self.layers, part, 0, 1, from, from + 1, state)
        }
    }

    /// Sets all of texture 0, which the tracker does not own yet: nothing is logged.
    pub fn set_single(&mut self, state: u16) -> Answer {
        let (table, starts, ends) = (&mut *self.table, &mut self.starts, &mut self.ends);
        let mut log = [0; 7];
        let logged = unsafe {
            track_set_single(
                table, starts.as_mut_ptr(), starts.len(), ends.as_mut_ptr(), ends.len(), 0, self.mips, self.layers,
                0, self.mips, 0, self.layers, state, log.as_mut_ptr(), log.len(), 0, 1,
            )
        };
        logged.answer
    }

    pub fn is_scope(&self) -> bool {
        unsafe { track_scope_is_well_formed(&*self.table, self.starts.as_ptr(), self.starts.len()) == 1 }
    }

    pub fn is_tracker(&self) -> bool {
        let (starts, ends) = (&self.starts, &self.ends);
        unsafe { track_tracker_is_well_formed(&*self.table, starts.as_ptr(), starts.len(), ends.as_ptr(), ends.len()) == 1 }
    }

    /// Makes a texture owned, in the set's mips and so many layers, and in one state at the start and at the end.
    pub fn own(&mut self, i: usize, layers: u32, state: u32) {
        self.table[OWNED + i] = 1;
        self.table[MIPS + i] = self.mips;
        self.table[LAYERS + i] = layers;
        self.table[START + i] = state;
        self.table[END + i] = state;
    }
}
