//! Stand-in for crate::snatch: the guard is only handed through.
#[derive(Default)]
pub(crate) struct SnatchGuard<'a>(#[allow(dead_code)] core::marker::PhantomData<&'a ()>);
