//! STAND-IN, written by us and not from the original: the crate `bitvec` as far as the original calls it.
//!
//! Only what the two bit vectors of `MultiPortGraph` need. A line whose behaviour is a guess is marked `guess:`.

/// The module of the vector type.
pub mod vec {
    use std::fmt;

    /// A growable vector of bits, held as bools.
    #[derive(Clone, Default, PartialEq, Eq)]
    pub struct BitVec {
        bits: Vec<bool>,
    }

    impl BitVec {
        /// An empty vector.
        pub fn new() -> Self {
            Self { bits: Vec::new() }
        }

        /// An empty vector with room for `capacity` bits.
        pub fn with_capacity(capacity: usize) -> Self {
            Self { bits: Vec::with_capacity(capacity) }
        }

        /// The number of bits held.
        pub fn len(&self) -> usize {
            self.bits.len()
        }

        /// Whether no bit is held.
        pub fn is_empty(&self) -> bool {
            self.bits.is_empty()
        }

        /// Drops every bit.
        pub fn clear(&mut self) {
            self.bits.clear();
        }

        /// Makes room for `additional` more bits.
        pub fn reserve(&mut self, additional: usize) {
            self.bits.reserve(additional);
        }

        /// Gives back room that is not used.
        pub fn shrink_to_fit(&mut self) {
            self.bits.shrink_to_fit();
        }

        /// Changes the length; new bits are `value`.
        pub fn resize(&mut self, len: usize, value: bool) {
            self.bits.resize(len, value);
        }

        /// The bits as a slice.
        pub fn as_slice(&self) -> &[bool] {
            &self.bits
        }

        /// The bits as a slice that can be written.
        pub fn as_mut_slice(&mut self) -> &mut [bool] {
            &mut self.bits
        }
    }

    impl fmt::Debug for BitVec {
        fn fmt(&self, f: &mut fmt::Formatter<'_>) -> fmt::Result {
            let ones = self.bits.iter().enumerate().filter(|(_, bit)| **bit).map(|(index, _)| index);
            f.debug_set().entries(ones).finish() // guess: the text form; nothing of ours reads it
        }
    }
}
