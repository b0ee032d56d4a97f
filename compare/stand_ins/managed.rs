//! Stand-in for the crate `managed`: the borrowed case of its slice, the only one that the diagnostics use.
use std::ops::{Deref, DerefMut};

pub enum ManagedSlice<'a, T> {
    Borrowed(&'a mut [T]),
}

impl<T> Deref for ManagedSlice<'_, T> {
    type Target = [T];

    fn deref(&self) -> &[T] {
        match self {
            ManagedSlice::Borrowed(slice) => slice,
        }
    }
}

impl<T> DerefMut for ManagedSlice<'_, T> {
    fn deref_mut(&mut self) -> &mut [T] {
        match self {
            ManagedSlice::Borrowed(slice) => slice,
        }
    }
}
