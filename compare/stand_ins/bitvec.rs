//! Stand-in for the crate `bitvec`: what the station list and the identifier blocks use of it, on plain arrays.
//!
//! One choice is bitvec's and not ours to find out by running: `BitSlice::from_slice` without a named order is `Lsb0`,
//! lowest bit of the first byte first. That is the crate's documented default.

/// The type of an array of so many bits.
#[macro_export]
macro_rules! BitArr {
    (for $bits:literal) => { $crate::array::BitArray<$bits> };
}

pub mod array {
    use crate::slice::BitSlice;
    use std::ops::{Index, IndexMut, Range, RangeFrom, RangeTo};

    #[derive(Clone, PartialEq, Eq)]
    pub struct BitArray<const BITS: usize>([bool; BITS]);

    impl<const BITS: usize> BitArray<BITS> {
        pub const ZERO: Self = BitArray([false; BITS]);

        /// Panics out of bounds, as bitvec's does.
        pub fn set(&mut self, index: usize, value: bool) {
            self.0[index] = value;
        }

        pub fn iter_ones(&self) -> impl DoubleEndedIterator<Item = usize> + '_ {
            (0..BITS).filter(|&index| self.0[index])
        }
    }

    impl<const BITS: usize> Index<usize> for BitArray<BITS> {
        type Output = bool;

        fn index(&self, index: usize) -> &bool {
            &self.0[index]
        }
    }

    macro_rules! indexed_by {
        ($range:ty) => {
            impl<const BITS: usize> Index<$range> for BitArray<BITS> {
                type Output = BitSlice<bool>;

                fn index(&self, range: $range) -> &BitSlice<bool> {
                    BitSlice::of(&self.0[range])
                }
            }

            impl<const BITS: usize> IndexMut<$range> for BitArray<BITS> {
                fn index_mut(&mut self, range: $range) -> &mut BitSlice<bool> {
                    BitSlice::of_mut(&mut self.0[range])
                }
            }
        };
    }
    indexed_by!(Range<usize>);
    indexed_by!(RangeFrom<usize>);
    indexed_by!(RangeTo<usize>);
}

pub mod slice {
    /// Bits held in elements of `T`: in each `bool` one, in each `u8` eight.
    #[derive(PartialEq, Eq)]
    #[repr(transparent)]
    pub struct BitSlice<T>([T]);

    impl<T> BitSlice<T> {
        pub(crate) fn of(elements: &[T]) -> &Self {
            // Sound: repr(transparent) gives both references the same form.
            unsafe { &*(elements as *const [T] as *const Self) }
        }

        pub(crate) fn of_mut(elements: &mut [T]) -> &mut Self {
            // Sound: repr(transparent) gives both references the same form.
            unsafe { &mut *(elements as *mut [T] as *mut Self) }
        }
    }

    impl BitSlice<bool> {
        pub fn any(&self) -> bool {
            self.0.contains(&true)
        }

        pub fn fill(&mut self, value: bool) {
            self.0.fill(value);
        }
    }

    impl BitSlice<u8> {
        pub fn from_slice(bytes: &[u8]) -> &Self {
            Self::of(bytes)
        }

        pub fn len(&self) -> usize {
            8 * self.0.len()
        }

        pub fn iter_ones(&self) -> impl DoubleEndedIterator<Item = usize> + '_ {
            (0..self.len()).filter(|&index| self.0[index / 8] >> (index % 8) & 1 == 1)
        }

        /// Not bitvec's: the bytes that the bits lie in, so that a block's body can be shown whole.
        pub fn bytes(&self) -> &[u8] {
            &self.0
        }
    }
}
