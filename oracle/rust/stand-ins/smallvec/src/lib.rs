//! Stand-in for smallvec: a vector that keeps up to one element in place and the rest on the heap.
//!
//! It has what range.rs uses and allocates when smallvec would, so that a benchmark is fair.
use std::ops::{Deref, DerefMut};

pub trait Array {
    type Item;
}

/// range.rs asks for one element in place; no other size is needed.
impl<T> Array for [T; 1] {
    type Item = T;
}

#[derive(Clone)]
enum Data<T> {
    Inline(Option<T>),
    Heap(Vec<T>),
}

pub struct SmallVec<A: Array>(Data<A::Item>);

impl<A: Array> SmallVec<A> {
    fn new() -> Self {
        Self(Data::Inline(None))
    }

    /// The heap vector, to which an element in place is moved first.
    fn heap(&mut self) -> &mut Vec<A::Item> {
        if let Data::Inline(one) = &mut self.0 {
            let mut heap = Vec::with_capacity(4);
            heap.extend(one.take());
            self.0 = Data::Heap(heap);
        }
        match &mut self.0 {
            Data::Heap(heap) => heap,
            Data::Inline(_) => unreachable!(),
        }
    }

    pub fn push(&mut self, value: A::Item) {
        match &mut self.0 {
            Data::Inline(one @ None) => *one = Some(value),
            _ => self.heap().push(value),
        }
    }

    pub fn insert(&mut self, index: usize, value: A::Item) {
        if self.is_empty() && index == 0 {
            self.push(value)
        } else {
            self.heap().insert(index, value)
        }
    }

    pub fn retain<F: FnMut(&mut A::Item) -> bool>(&mut self, mut keep: F) {
        match &mut self.0 {
            Data::Inline(one) => {
                if one.as_mut().is_some_and(|value| !keep(value)) {
                    *one = None;
                }
            }
            Data::Heap(heap) => heap.retain_mut(keep),
        }
    }
}

impl<A: Array> Deref for SmallVec<A> {
    type Target = [A::Item];

    fn deref(&self) -> &[A::Item] {
        match &self.0 {
            Data::Inline(one) => one.as_slice(),
            Data::Heap(heap) => heap,
        }
    }
}

impl<A: Array> DerefMut for SmallVec<A> {
    fn deref_mut(&mut self) -> &mut [A::Item] {
        match &mut self.0 {
            Data::Inline(one) => one.as_mut_slice(),
            Data::Heap(heap) => heap,
        }
    }
}

impl<A: Array> FromIterator<A::Item> for SmallVec<A> {
    fn from_iter<I: IntoIterator<Item = A::Item>>(items: I) -> Self {
        let mut vec = Self::new();
        for item in items {
            vec.push(item);
        }
        vec
    }
}

impl<A: Array> Clone for SmallVec<A>
where
    A::Item: Clone,
{
    fn clone(&self) -> Self {
        self.iter().cloned().collect()
    }
}

impl<A: Array> PartialEq for SmallVec<A>
where
    A::Item: PartialEq,
{
    fn eq(&self, other: &Self) -> bool {
        **self == **other
    }
}

impl<A: Array> std::fmt::Debug for SmallVec<A>
where
    A::Item: std::fmt::Debug,
{
    fn fmt(&self, f: &mut std::fmt::Formatter<'_>) -> std::fmt::Result {
        (**self).fmt(f)
    }
}
