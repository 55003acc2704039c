//! Counts comparisons and keeps the smallest difference.
use crate::case::Flags;
use std::fmt::Debug;

#[derive(Default)]
pub struct Tally {
    pub comparisons: u64,
    pub differences: u64,
    /// A number and what is told of it.
    pub smallest: Option<(u32, String)>,
}

impl Tally {
    /// Compares what the library says about a number with what is wanted. `place` says where the number stood.
    #[inline]
    pub fn compare<T: PartialEq + Debug>(&mut self, number: u32, library: T, wanted: T, flags: Flags, place: impl FnOnce() -> String) {
        self.comparisons += 1;
        if library != wanted {
            self.differences += 1;
            if self.smallest.as_ref().map_or(true, |(least, _)| number < *least) {
                let told = format!("{number} ({number:#x}): the library says {library:?}, not {wanted:?}; {}; {flags}", place());
                self.smallest = Some((number, told));
            }
        }
    }
}
