//! Stand-in for the crate `bitvec`: what the station list and the identifier blocks use of it.
//!
//! As in bitvec the 128 flags are bits of two machine words, a part of them is named by where it starts and ends, and the
//! ones are found a word at a time by counting zeros. bitvec 1 does more for each of these: it packs a part's start and
//! length into a pointer and unpacks it again, tells whole words from cut ones for every question, and splits the part
//! behind each one found. None of that is done here, so that this is at least as fast as the crate.

/// The type of an array of so many bits.
#[macro_export]
macro_rules! BitArr {
    (for 128) => { $crate::array::BitArray };
}

pub mod array {
    use crate::slice::Bits;
    use std::ops::{Index, IndexMut, Range, RangeFrom, RangeTo};

    #[derive(Clone, PartialEq, Eq)]
    pub struct BitArray(pub(crate) [u64; 2]);

    impl BitArray {
        pub const ZERO: Self = BitArray([0; 2]);

        #[inline]
        pub fn set(&mut self, index: usize, value: bool) {
            let bit = 1 << (index % 64);
            let word = &mut self.0[index / 64];
            *word = if value { *word | bit } else { *word & !bit };
        }

        #[inline]
        pub fn iter_ones(&self) -> Ones {
            Ones(self.0)
        }
    }

    /// The ones that are left, from either end.
    pub struct Ones([u64; 2]);

    impl Iterator for Ones {
        type Item = usize;

        #[inline]
        fn next(&mut self) -> Option<usize> {
            for (base, word) in [0, 64].into_iter().zip(&mut self.0) {
                if *word != 0 {
                    let bit = word.trailing_zeros() as usize;
                    *word &= *word - 1;
                    return Some(base + bit);
                }
            }
            None
        }
    }

    impl DoubleEndedIterator for Ones {
        #[inline]
        fn next_back(&mut self) -> Option<usize> {
            for (base, word) in [64, 0].into_iter().zip(self.0.iter_mut().rev()) {
                if *word != 0 {
                    let bit = 63 - word.leading_zeros() as usize;
                    *word ^= 1 << bit;
                    return Some(base + bit);
                }
            }
            None
        }
    }

    impl Index<usize> for BitArray {
        type Output = bool;

        #[inline]
        fn index(&self, index: usize) -> &bool {
            if self.0[index / 64] >> (index % 64) & 1 == 1 { &true } else { &false }
        }
    }

    macro_rules! indexed_by {
        ($range:ty, $bounds:expr) => {
            impl Index<$range> for BitArray {
                type Output = Bits;

                #[inline]
                fn index(&self, range: $range) -> &Bits {
                    let (start, end) = $bounds(range);
                    Bits::of(&self.0, start, end)
                }
            }

            impl IndexMut<$range> for BitArray {
                #[inline]
                fn index_mut(&mut self, range: $range) -> &mut Bits {
                    let (start, end) = $bounds(range);
                    Bits::of_mut(&mut self.0, start, end)
                }
            }
        };
    }
    indexed_by!(Range<usize>, |range: Range<usize>| (range.start, range.end));
    indexed_by!(RangeFrom<usize>, |range: RangeFrom<usize>| (range.start, 128));
    indexed_by!(RangeTo<usize>, |range: RangeTo<usize>| (0, range.end));
}

pub mod slice {
    /// A part of two words of bits. Where it starts and ends stands in the length of a reference to it: `start + 256 * end`.
    #[repr(transparent)]
    pub struct Bits([()]);

    impl Bits {
        #[inline]
        pub(crate) fn of(words: &[u64; 2], start: usize, end: usize) -> &Self {
            let bounds = checked(start, end);
            // Sound: a slice of units covers no memory, and the two words outlive the reference.
            unsafe { &*(std::ptr::slice_from_raw_parts(words.as_ptr().cast::<()>(), bounds) as *const Self) }
        }

        #[inline]
        pub(crate) fn of_mut(words: &mut [u64; 2], start: usize, end: usize) -> &mut Self {
            let bounds = checked(start, end);
            // Sound: as above.
            unsafe { &mut *(std::ptr::slice_from_raw_parts_mut(words.as_mut_ptr().cast::<()>(), bounds) as *mut Self) }
        }

        /// The bits of each word that belong to the part.
        #[inline]
        fn masks(&self) -> [u64; 2] {
            let (start, end) = (self.0.len() % 256, self.0.len() / 256);
            let below = |n: usize| if n < 64 { [(1 << n) - 1, 0] } else if n < 128 { [!0, (1 << (n - 64)) - 1] } else { [!0, !0] };
            let (low, high) = (below(start), below(end));
            [high[0] & !low[0], high[1] & !low[1]]
        }

        #[inline]
        pub fn any(&self) -> bool {
            let masks = self.masks();
            // Sound: made by `of` from two words.
            let words = unsafe { *(self as *const Self as *const [u64; 2]) };
            words[0] & masks[0] != 0 || words[1] & masks[1] != 0
        }

        #[inline]
        pub fn fill(&mut self, value: bool) {
            let masks = self.masks();
            // Sound: made by `of_mut` from two words.
            let words = unsafe { &mut *(self as *mut Self as *mut [u64; 2]) };
            for (word, mask) in words.iter_mut().zip(masks) {
                *word = if value { *word | mask } else { *word & !mask };
            }
        }
    }

    /// The bounds in one number; panics where they are none, as bitvec does.
    #[inline]
    fn checked(start: usize, end: usize) -> usize {
        assert!(start <= end && end <= 128);
        start + 256 * end
    }

    /// Bits held in bytes: the body of an identifier block. The walk makes one and looks at none of its bits.
    #[derive(PartialEq, Eq)]
    #[repr(transparent)]
    pub struct BitSlice<T>([T]);

    impl BitSlice<u8> {
        #[inline]
        pub fn from_slice(bytes: &[u8]) -> &Self {
            // Sound: repr(transparent) gives both references the same form.
            unsafe { &*(bytes as *const [u8] as *const Self) }
        }

        /// Only for the Debug output of the original, which nothing here calls.
        pub fn iter_ones(&self) -> impl DoubleEndedIterator<Item = usize> + '_ {
            (0..8 * self.0.len()).filter(|&index| self.0[index / 8] >> (index % 8) & 1 == 1)
        }

        /// Not bitvec's: the bytes that the bits lie in.
        #[inline]
        pub fn bytes(&self) -> &[u8] {
            &self.0
        }
    }
}
