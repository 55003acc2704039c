//! The port's calls, as the library has them: a slice is a pointer and a length, a set's table a pointer to 2,376 numbers.
//! docs/CALLS.md has what each call borrows; crates/set_storage has the layout of a set.
use driver::direct::{Half, Selector};

pub const TABLE: usize = 2376;
const OWNED: usize = 8;
const MIPS: usize = 72;
const LAYERS: usize = 136;
const START: usize = 200;
const END: usize = 1288;
const COUNTS: usize = 64;

/// EXCLUSIVE, UNINITIALIZED, COMPLEX, UNKNOWN: those of the oracle's library.
pub const FLAGS: [u32; 4] = [20, 1, 4096, 8192];

#[repr(C)]
#[derive(Clone, Copy)]
pub struct Answer {
    /// 0 done, 1 refused, 2 a conflict.
    pub kind: u32,
    _rest: [u32; 9],
}

#[repr(C)]
#[derive(Clone, Copy)]
pub struct LoggedAnswer {
    pub answer: Answer,
    pub written: usize,
    pub free: usize,
}

#[repr(C)]
#[derive(Clone, Copy)]
pub struct MergedAnswer {
    pub answer: Answer,
    pub written: usize,
    pub free: usize,
    pub rest_first: u32,
    pub rest_offset: usize,
    pub rest_length: usize,
}

#[repr(C)]
#[derive(Clone, Copy)]
pub struct CountedAnswer {
    pub answer: Answer,
    pub count: usize,
}

type Table = [u32; TABLE];

#[rustfmt::skip]
extern "C" {
    fn track_open_scope(table: *mut Table, ranges: *const u32, ranges_len: usize, n: u32, m: u32, w: u32, exclusive: u32,
        uninitialized: u32, complex: u32, unknown: u32) -> Answer;
    fn track_open_tracker(table: *mut Table, starts: *const u32, starts_len: usize, ends: *const u32, ends_len: usize, n: u32, m: u32,
        w: u32, exclusive: u32, uninitialized: u32, complex: u32, unknown: u32, mask: u16) -> Answer;
    fn track_merge_single(table: *mut Table, ranges: *mut u32, ranges_len: usize, index: u32, mips: u32, layers: u32, part: u32,
        mip_start: u32, mip_end: u32, layer_start: u32, layer_end: u32, state: u16) -> Answer;
    fn track_merge_usage_scope(table: *mut Table, ranges: *mut u32, ranges_len: usize, given: *const Table, lent: *const u32,
        lent_len: usize) -> Answer;
    fn track_set_single(table: *mut Table, starts: *mut u32, starts_len: usize, ends: *mut u32, ends_len: usize, index: u32, mips: u32,
        layers: u32, mip_start: u32, mip_end: u32, layer_start: u32, layer_end: u32, state: u16, log: *mut u32, log_len: usize,
        written: usize, free: usize) -> LoggedAnswer;
    fn track_set_from_usage_scope(table: *mut Table, starts: *mut u32, starts_len: usize, ends: *mut u32, ends_len: usize,
        given: *const Table, lent: *const u32, lent_len: usize, log: *mut u32, log_len: usize, written: usize, free: usize)
        -> LoggedAnswer;
    fn track_set_from_tracker(table: *mut Table, starts: *mut u32, starts_len: usize, ends: *mut u32, ends_len: usize,
        given: *const Table, first: *const u32, first_len: usize, last: *const u32, last_len: usize, log: *mut u32, log_len: usize,
        written: usize, free: usize) -> LoggedAnswer;
    fn track_set_and_remove_from_usage_scope_sparse(table: *mut Table, starts: *mut u32, starts_len: usize, ends: *mut u32,
        ends_len: usize, given: *mut Table, lent: *const u32, lent_len: usize, indices: *const u32, indices_len: usize,
        log: *mut u32, log_len: usize, written: usize, free: usize) -> LoggedAnswer;
    fn track_merge_logs(first: *const u32, first_len: usize, second: *const u32, second_len: usize, third: *mut u32, third_len: usize,
        written: usize, free: usize) -> MergedAnswer;
    fn track_read_plan(file: *const u8, file_len: usize, items: *mut u8, items_len: usize) -> CountedAnswer;
    fn track_write_plan(items: *const u8, items_len: usize, file: *mut u8, file_len: usize) -> CountedAnswer;
    fn track_scope_is_well_formed(table: *const Table, ranges: *const u32, ranges_len: usize) -> u32;
    fn track_tracker_is_well_formed(table: *const Table, starts: *const u32, starts_len: usize, ends: *const u32, ends_len: usize)
        -> u32;
}

/// Textures, mips and layers that a set is opened for.
#[derive(Clone, Copy)]
pub struct Size {
    pub n: u32,
    pub m: u32,
    pub w: u32,
}

impl Size {
    fn ranges(self) -> usize {
        (self.n * self.m * self.w) as usize
    }
}

/// Writes what one half holds of a texture.
fn put_half(table: &mut Table, half: usize, ranges: &mut [u32], i: usize, held: &Half) {
    let (m, w) = (table[1] as usize, table[2] as usize);
    match held {
        Half::Single(state) => table[half + i] = u32::from(*state),
        Half::Many(mips) => {
            table[half + i] = FLAGS[2];
            for (mip, records) in mips.iter().enumerate() {
                table[half + COUNTS + 16 * i + mip] = records.len() as u32;
                let base = 3 * (i * m + mip) * w;
                for (k, &(start, end, state)) in records.iter().enumerate() {
                    let record = [start, end, u32::from(state)];
                    ranges[base + 3 * k..base + 3 * k + 3].copy_from_slice(&record);
                }
            }
        }
    }
}

fn put_texture(table: &mut Table, i: usize, mips: u32, layers: u32) {
    table[OWNED + i] = 1;
    table[MIPS + i] = mips;
    table[LAYERS + i] = layers;
}

pub struct Scope {
    table: Box<Table>,
    ranges: Vec<u32>,
}

impl Scope {
    pub fn open(size: Size) -> Self {
        let mut scope = Self {
            table: Box::new([0; TABLE]),
            ranges: vec![0; 3 * size.ranges()],
        };
        let (table, ranges) = (&mut *scope.table, &scope.ranges);
        let [exclusive, uninitialized, complex, unknown] = FLAGS;
        let answer = unsafe {
            track_open_scope(
                table, ranges.as_ptr(), ranges.len(), size.n, size.m, size.w, exclusive, uninitialized, complex, unknown,
            )
        };
        assert_eq!(answer.kind, 0);
        scope
    }

    pub fn put(&mut self, i: usize, mips: u32, layers: u32, half: &Half) {
        put_texture(&mut self.table, i, mips, layers);
        put_half(&mut self.table, START, &mut self.ranges, i, half);
    }

    /// Makes a texture owned again that a sparse call removed.
    pub fn own(&mut self, i: usize) {
        self.table[OWNED + i] = 1;
    }

    #[inline]
    pub fn merge_single(&mut self, index: u32, mips: u32, layers: u32, q: Option<Selector>, state: u16) -> Answer {
        let (part, q) = q.map_or((0, [0; 4]), |q| (1, q));
        let (table, ranges) = (&mut *self.table, &mut self.ranges);
        unsafe {
            track_merge_single(
                table, ranges.as_mut_ptr(), ranges.len(), index, mips, layers, part, q[0], q[1], q[2], q[3], state,
            )
        }
    }

    #[inline]
    pub fn merge_usage_scope(&mut self, from: &Scope) -> Answer {
        let (table, ranges) = (&mut *self.table, &mut self.ranges);
        unsafe {
            track_merge_usage_scope(
                table, ranges.as_mut_ptr(), ranges.len(), &*from.table, from.ranges.as_ptr(), from.ranges.len(),
            )
        }
    }

    #[inline]
    pub fn is_well_formed(&self) -> bool {
        unsafe { track_scope_is_well_formed(&*self.table, self.ranges.as_ptr(), self.ranges.len()) != 0 }
    }
}

pub struct Tracker {
    table: Box<Table>,
    starts: Vec<u32>,
    ends: Vec<u32>,
    log: Vec<u32>,
}

impl Tracker {
    /// A tracker, and a log with an entry for each of its subresources.
    pub fn open(size: Size, mask: u16) -> Self {
        let mut tracker = Self {
            table: Box::new([0; TABLE]),
            starts: vec![0; 3 * size.ranges()],
            ends: vec![0; 3 * size.ranges()],
            log: vec![0; 7 * size.ranges()],
        };
        let (starts, ends) = (&tracker.starts, &tracker.ends);
        let [exclusive, uninitialized, complex, unknown] = FLAGS;
        let answer = unsafe {
            track_open_tracker(
                &mut *tracker.table, starts.as_ptr(), starts.len(), ends.as_ptr(), ends.len(), size.n, size.m, size.w,
                exclusive, uninitialized, complex, unknown, mask,
            )
        };
        assert_eq!(answer.kind, 0);
        tracker
    }

    pub fn put(&mut self, i: usize, mips: u32, layers: u32, start: &Half, end: &Half) {
        put_texture(&mut self.table, i, mips, layers);
        put_half(&mut self.table, START, &mut self.starts, i, start);
        put_half(&mut self.table, END, &mut self.ends, i, end);
    }

    #[inline]
    pub fn set_single(&mut self, index: u32, mips: u32, layers: u32, q: Selector, state: u16) -> LoggedAnswer {
        let free = self.log.len() / 7;
        unsafe {
            track_set_single(
                &mut *self.table, self.starts.as_mut_ptr(), self.starts.len(), self.ends.as_mut_ptr(), self.ends.len(), index, mips,
                layers, q[0], q[1], q[2], q[3], state, self.log.as_mut_ptr(), self.log.len(), 0, free,
            )
        }
    }

    #[inline]
    pub fn set_from_usage_scope(&mut self, from: &Scope) -> LoggedAnswer {
        let free = self.log.len() / 7;
        unsafe {
            track_set_from_usage_scope(
                &mut *self.table, self.starts.as_mut_ptr(), self.starts.len(), self.ends.as_mut_ptr(), self.ends.len(), &*from.table,
                from.ranges.as_ptr(), from.ranges.len(), self.log.as_mut_ptr(), self.log.len(), 0, free,
            )
        }
    }

    #[inline]
    pub fn set_from_tracker(&mut self, from: &Tracker) -> LoggedAnswer {
        let free = self.log.len() / 7;
        unsafe {
            track_set_from_tracker(
                &mut *self.table, self.starts.as_mut_ptr(), self.starts.len(), self.ends.as_mut_ptr(), self.ends.len(), &*from.table,
                from.starts.as_ptr(), from.starts.len(), from.ends.as_ptr(), from.ends.len(), self.log.as_mut_ptr(), self.log.len(),
                0, free,
            )
        }
    }

    #[inline]
    pub fn set_and_remove_from_usage_scope_sparse(&mut self, from: &mut Scope, indices: &[u32]) -> LoggedAnswer {
        let free = self.log.len() / 7;
        unsafe {
            track_set_and_remove_from_usage_scope_sparse(
                &mut *self.table, self.starts.as_mut_ptr(), self.starts.len(), self.ends.as_mut_ptr(), self.ends.len(),
                &mut *from.table, from.ranges.as_ptr(), from.ranges.len(), indices.as_ptr(), indices.len(), self.log.as_mut_ptr(),
                self.log.len(), 0, free,
            )
        }
    }

    #[inline]
    pub fn is_well_formed(&self) -> bool {
        unsafe {
            track_tracker_is_well_formed(
                &*self.table, self.starts.as_ptr(), self.starts.len(), self.ends.as_ptr(), self.ends.len(),
            ) != 0
        }
    }
}

/// Merges into a log that is empty.
#[inline]
pub fn merge_logs(first: &[u32], second: &[u32], third: &mut [u32]) -> MergedAnswer {
    unsafe {
        track_merge_logs(
            first.as_ptr(), first.len(), second.as_ptr(), second.len(), third.as_mut_ptr(), third.len(), 0, third.len() / 7,
        )
    }
}

#[inline]
pub fn read_plan(file: &[u8], items: &mut [u8]) -> CountedAnswer {
    unsafe { track_read_plan(file.as_ptr(), file.len(), items.as_mut_ptr(), items.len()) }
}

#[inline]
pub fn write_plan(items: &[u8], file: &mut [u8]) -> CountedAnswer {
    unsafe { track_write_plan(items.as_ptr(), items.len(), file.as_mut_ptr(), file.len()) }
}
