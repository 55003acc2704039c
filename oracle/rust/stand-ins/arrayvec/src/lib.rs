//! Stand-in for arrayvec: a vector of at most `CAP` elements, all in place.
//!
//! It has what texture.rs uses: collecting (too many elements panic), slices, and clones.
use std::{
    mem::MaybeUninit,
    ops::{Deref, DerefMut},
    ptr, slice,
};

pub struct ArrayVec<T, const CAP: usize> {
    /// The first `len` elements are initialised.
    elements: [MaybeUninit<T>; CAP],
    len: usize,
}

impl<T, const CAP: usize> ArrayVec<T, CAP> {
    fn push(&mut self, value: T) {
        assert!(self.len < CAP, "ArrayVec: capacity exceeded");
        self.elements[self.len].write(value);
        self.len += 1;
    }
}

impl<T, const CAP: usize> Default for ArrayVec<T, CAP> {
    fn default() -> Self {
        Self {
            elements: [const { MaybeUninit::uninit() }; CAP],
            len: 0,
        }
    }
}

impl<T, const CAP: usize> Drop for ArrayVec<T, CAP> {
    fn drop(&mut self) {
        // SAFETY: the slice is the initialised part, and it is not read again.
        unsafe { ptr::drop_in_place::<[T]>(&mut **self) }
    }
}

impl<T, const CAP: usize> Deref for ArrayVec<T, CAP> {
    type Target = [T];

    fn deref(&self) -> &[T] {
        // SAFETY: the first `len` elements are initialised.
        unsafe { slice::from_raw_parts(self.elements.as_ptr().cast(), self.len) }
    }
}

impl<T, const CAP: usize> DerefMut for ArrayVec<T, CAP> {
    fn deref_mut(&mut self) -> &mut [T] {
        // SAFETY: the first `len` elements are initialised.
        unsafe { slice::from_raw_parts_mut(self.elements.as_mut_ptr().cast(), self.len) }
    }
}

impl<T, const CAP: usize> FromIterator<T> for ArrayVec<T, CAP> {
    fn from_iter<I: IntoIterator<Item = T>>(items: I) -> Self {
        let mut vec = Self::default();
        for item in items {
            vec.push(item);
        }
        vec
    }
}

impl<T: Clone, const CAP: usize> Clone for ArrayVec<T, CAP> {
    fn clone(&self) -> Self {
        self.iter().cloned().collect()
    }
}

impl<T: PartialEq, const CAP: usize> PartialEq for ArrayVec<T, CAP> {
    fn eq(&self, other: &Self) -> bool {
        **self == **other
    }
}

impl<T: std::fmt::Debug, const CAP: usize> std::fmt::Debug for ArrayVec<T, CAP> {
    fn fmt(&self, f: &mut std::fmt::Formatter<'_>) -> std::fmt::Result {
        (**self).fmt(f)
    }
}
