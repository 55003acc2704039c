//! Stand-in for bitflags: the two methods of its trait that `skip_barrier` calls.
pub trait Flags: Sized {
    type Bits: PartialEq;
    fn bits(&self) -> Self::Bits;
    fn contains(&self, other: Self) -> bool;
}
