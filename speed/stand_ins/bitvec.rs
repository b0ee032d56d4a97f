//! Stand-in for the crate `bitvec` 1: what the station list and the identifier blocks use of it, in the crate's own steps.
//!
//! The 128 flags are bits of two machine words. A part of them is a reference like a slice's, with the place of its first bit
//! packed into the pointer and the length. Every question unpacks it and divides the part into a head, whole words and a tail
//! (the crate's `Domain`); the ones are found a word at a time by counting zeros, and the part is split behind each one found.
//! What the crate does beyond these steps is left out (it picks the division by a pointer to a function, offsets by signed
//! sums and wraps each word in a type of its own), so that this is no slower than the crate.

/// The type of an array of so many bits.
#[macro_export]
macro_rules! BitArr {
    (for 128) => { $crate::array::BitArray };
}

pub mod array {
    use crate::slice::Bits;
    use std::ops::{Deref, DerefMut};

    #[derive(Clone, PartialEq, Eq)]
    pub struct BitArray([usize; 2]);

    impl BitArray {
        pub const ZERO: Self = BitArray([0; 2]);
    }

    impl Deref for BitArray {
        type Target = Bits;

        #[inline]
        fn deref(&self) -> &Bits {
            // Sound: the two words outlive the reference.
            unsafe { &*Bits::packed(self.0.as_ptr(), 0, 128) }
        }
    }

    impl DerefMut for BitArray {
        #[inline]
        fn deref_mut(&mut self) -> &mut Bits {
            // Sound: as above, and borrowed alone.
            unsafe { &mut *Bits::packed(self.0.as_mut_ptr(), 0, 128).cast_mut() }
        }
    }

    impl<I> std::ops::Index<I> for BitArray
    where
        Bits: std::ops::Index<I>,
    {
        type Output = <Bits as std::ops::Index<I>>::Output;

        #[inline]
        fn index(&self, index: I) -> &Self::Output {
            &(**self)[index]
        }
    }

    impl<I> std::ops::IndexMut<I> for BitArray
    where
        Bits: std::ops::IndexMut<I>,
    {
        #[inline]
        fn index_mut(&mut self, index: I) -> &mut Self::Output {
            &mut (**self)[index]
        }
    }
}

pub mod slice {
    use std::ops::{Index, IndexMut, Range, RangeFrom, RangeTo};

    const WIDTH: usize = usize::BITS as usize;

    /// A part of some words of bits; see the head of this file for what a reference to it holds.
    #[repr(transparent)]
    pub struct Bits([()]);

    /// A part's words: where they are, and which of their bits belong to it. In one word, or a cut first word, whole words
    /// and a cut last word, each of which may be missing.
    enum Domain {
        Enclave { at: *const usize, mask: usize, head: usize },
        Region { head: Option<(*const usize, usize, usize)>, body: *const usize, words: usize, tail: Option<(*const usize, usize)> },
    }

    impl Bits {
        #[inline]
        pub(crate) fn packed(words: *const usize, head: usize, bits: usize) -> *const Bits {
            let pointer = words.map_addr(|address| address | head >> 3).cast::<()>();
            std::ptr::slice_from_raw_parts(pointer, bits << 3 | head & 7) as *const Bits
        }

        #[inline]
        fn len(&self) -> usize {
            self.0.len() >> 3
        }

        #[inline]
        fn head(&self) -> usize {
            (self.0.as_ptr().addr() & 7) << 3 | self.0.len() & 7
        }

        #[inline]
        fn words(&self) -> *const usize {
            self.0.as_ptr().map_addr(|address| address & !7).cast()
        }

        #[inline]
        fn domain(&self) -> Domain {
            let (at, head, bits) = (self.words(), self.head(), self.len());
            let elements = (head + bits).div_ceil(WIDTH);
            let tail = (head + bits) % WIDTH;
            let from = usize::MAX << head;
            let below = |n: usize| (1 << n) - 1;
            match (head, elements, tail) {
                (_, 0, _) => Domain::Region { head: None, body: at, words: 0, tail: None },
                (0, _, 0) => Domain::Region { head: None, body: at, words: elements, tail: None },
                (_, _, 0) => Domain::Region { head: Some((at, from, head)), body: at.wrapping_add(1), words: elements - 1, tail: None },
                (0, _, _) => Domain::Region {
                    head: None,
                    body: at,
                    words: elements - 1,
                    tail: Some((at.wrapping_add(elements - 1), below(tail))),
                },
                (_, 1, _) => Domain::Enclave { at, mask: from & below(tail), head },
                _ => Domain::Region {
                    head: Some((at, from, head)),
                    body: at.wrapping_add(1),
                    words: elements - 2,
                    tail: Some((at.wrapping_add(elements - 1), below(tail))),
                },
            }
        }

        /// The part from one bit up to below another.
        #[inline]
        fn between(&self, start: usize, end: usize) -> *const Bits {
            let place = self.head() + start;
            Self::packed(self.words().wrapping_add(place / WIDTH), place % WIDTH, end - start)
        }

        #[inline]
        fn first_one(&self) -> Option<usize> {
            let mut passed = 0;
            match self.domain() {
                Domain::Enclave { at, mask, head } => {
                    let word = unsafe { *at } & mask;
                    (word != 0).then(|| word.trailing_zeros() as usize - head)
                }
                Domain::Region { head, body, words, tail } => {
                    if let Some((at, mask, head)) = head {
                        let word = unsafe { *at } & mask;
                        if word != 0 {
                            return Some(word.trailing_zeros() as usize - head);
                        }
                        passed += WIDTH - head;
                    }
                    for word in unsafe { std::slice::from_raw_parts(body, words) } {
                        if *word != 0 {
                            return Some(passed + word.trailing_zeros() as usize);
                        }
                        passed += WIDTH;
                    }
                    if let Some((at, mask)) = tail {
                        let word = unsafe { *at } & mask;
                        if word != 0 {
                            return Some(passed + word.trailing_zeros() as usize);
                        }
                    }
                    None
                }
            }
        }

        #[inline]
        fn last_one(&self) -> Option<usize> {
            let highest = |word: usize| WIDTH - 1 - word.leading_zeros() as usize;
            match self.domain() {
                Domain::Enclave { at, mask, head } => {
                    let word = unsafe { *at } & mask;
                    (word != 0).then(|| highest(word) - head)
                }
                Domain::Region { head, body, words, tail } => {
                    let cut = head.map_or(0, |(_, _, head)| WIDTH - head);
                    if let Some((at, mask)) = tail {
                        let word = unsafe { *at } & mask;
                        if word != 0 {
                            return Some(cut + words * WIDTH + highest(word));
                        }
                    }
                    for (index, word) in unsafe { std::slice::from_raw_parts(body, words) }.iter().enumerate().rev() {
                        if *word != 0 {
                            return Some(cut + index * WIDTH + highest(*word));
                        }
                    }
                    if let Some((at, mask, head)) = head {
                        let word = unsafe { *at } & mask;
                        if word != 0 {
                            return Some(highest(word) - head);
                        }
                    }
                    None
                }
            }
        }

        #[inline]
        pub fn iter_ones(&self) -> Ones<'_> {
            Ones { rest: self, front: 0 }
        }

        #[inline]
        pub fn any(&self) -> bool {
            match self.domain() {
                Domain::Enclave { at, mask, .. } => (unsafe { *at } & mask) != 0,
                Domain::Region { head, body, words, tail } => {
                    head.is_some_and(|(at, mask, _)| (unsafe { *at } & mask) != 0)
                        || unsafe { std::slice::from_raw_parts(body, words) }.iter().any(|word| *word != 0)
                        || tail.is_some_and(|(at, mask)| (unsafe { *at } & mask) != 0)
                }
            }
        }

        #[inline]
        pub fn fill(&mut self, value: bool) {
            // Sound: the part is borrowed alone, and its words with it, since it is a part of one array.
            let put = |at: *const usize, mask: usize| unsafe {
                let at = at.cast_mut();
                *at = if value { *at | mask } else { *at & !mask };
            };
            match self.domain() {
                Domain::Enclave { at, mask, .. } => put(at, mask),
                Domain::Region { head, body, words, tail } => {
                    if let Some((at, mask, _)) = head {
                        put(at, mask);
                    }
                    for index in 0..words {
                        put(body.wrapping_add(index), usize::MAX);
                    }
                    if let Some((at, mask)) = tail {
                        put(at, mask);
                    }
                }
            }
        }

        /// Panics out of bounds, as bitvec's does.
        #[inline]
        pub fn set(&mut self, index: usize, value: bool) {
            assert!(index < self.len());
            let place = self.head() + index;
            let bit = 1 << (place % WIDTH);
            // Sound: the bit lies in the part, which is borrowed alone.
            let word = unsafe { &mut *self.words().wrapping_add(place / WIDTH).cast_mut() };
            *word = if value { *word | bit } else { *word & !bit };
        }
    }

    /// The ones of what is left of a part, from either end.
    pub struct Ones<'a> {
        rest: &'a Bits,
        front: usize,
    }

    impl Iterator for Ones<'_> {
        type Item = usize;

        #[inline]
        fn next(&mut self) -> Option<usize> {
            let found = self.rest.first_one()?;
            // Sound: a part of what is left.
            self.rest = unsafe { &*self.rest.between(found + 1, self.rest.len()) };
            let one = self.front + found;
            self.front = one + 1;
            Some(one)
        }
    }

    impl DoubleEndedIterator for Ones<'_> {
        #[inline]
        fn next_back(&mut self) -> Option<usize> {
            let found = self.rest.last_one()?;
            // Sound: a part of what is left.
            self.rest = unsafe { &*self.rest.between(0, found) };
            Some(self.front + found)
        }
    }

    impl Index<usize> for Bits {
        type Output = bool;

        #[inline]
        fn index(&self, index: usize) -> &bool {
            assert!(index < self.len());
            let place = self.head() + index;
            // Sound: the bit lies in the part.
            let word = unsafe { *self.words().wrapping_add(place / WIDTH) };
            if word >> (place % WIDTH) & 1 == 1 { &true } else { &false }
        }
    }

    macro_rules! indexed_by {
        ($range:ty, $bounds:expr) => {
            impl Index<$range> for Bits {
                type Output = Bits;

                #[inline]
                fn index(&self, range: $range) -> &Bits {
                    let (start, end) = $bounds(range, self.len());
                    assert!(start <= end && end <= self.len());
                    // Sound: a part of this one.
                    unsafe { &*self.between(start, end) }
                }
            }

            impl IndexMut<$range> for Bits {
                #[inline]
                fn index_mut(&mut self, range: $range) -> &mut Bits {
                    let (start, end) = $bounds(range, self.len());
                    assert!(start <= end && end <= self.len());
                    // Sound: a part of this one, which is borrowed alone.
                    unsafe { &mut *self.between(start, end).cast_mut() }
                }
            }
        };
    }
    indexed_by!(Range<usize>, |range: Range<usize>, _| (range.start, range.end));
    indexed_by!(RangeFrom<usize>, |range: RangeFrom<usize>, len| (range.start, len));
    indexed_by!(RangeTo<usize>, |range: RangeTo<usize>, _| (0, range.end));

    /// Bits held in bytes: the body of an identifier block. The walk makes one and looks at none of its bits.
    #[derive(PartialEq, Eq)]
    #[repr(transparent)]
    pub struct BitSlice<T>([T]);

    impl BitSlice<u8> {
        #[inline]
        pub fn from_slice(bytes: &[u8]) -> &Self {
            // Sound: repr(transparent) gives both references the same form.
            unsafe { &*(bytes as *const [u8] as *const Self) }
        }

        /// Only for the Debug output of the original, which nothing here calls.
        pub fn iter_ones(&self) -> impl DoubleEndedIterator<Item = usize> + '_ {
            (0..8 * self.0.len()).filter(|&index| self.0[index / 8] >> (index % 8) & 1 == 1)
        }

        /// Not bitvec's: the bytes that the bits lie in.
        #[inline]
        pub fn bytes(&self) -> &[u8] {
            &self.0
        }
    }
}
