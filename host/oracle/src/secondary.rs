//! STAND-IN, written by us and not from the original: the map from indices to values, as far as the two bit vectors of
//! `MultiPortGraph` need it. A line whose behaviour is a guess is marked `guess:`.

use bitvec::vec::BitVec;

/// A map from indices to values, with a default for every index that was not set.
pub trait SecondaryMap<K, V> {
    /// The value of a key, or the default.
    fn get(&self, key: K) -> &V;

    /// Sets the value of a key.
    fn set(&mut self, key: K, value: V);

    /// Exchanges the values of two keys.
    fn swap(&mut self, one: K, other: K);
}

impl<K: Into<usize>> SecondaryMap<K, bool> for BitVec {
    fn get(&self, key: K) -> &bool {
        self.as_slice().get(key.into()).unwrap_or(&false) // guess: false for an index that was never set
    }

    fn set(&mut self, key: K, value: bool) {
        let index = key.into();
        if index >= self.len() {
            self.resize(index + 1, false); // guess: setting grows the vector; only its comparison could tell
        }
        self.as_mut_slice()[index] = value;
    }

    fn swap(&mut self, one: K, other: K) {
        let (one, other) = (one.into(), other.into());
        let len = one.max(other) + 1;
        if len > self.len() {
            self.resize(len, false); // guess: an index that was never set swaps as false
        }
        self.as_mut_slice().swap(one, other);
    }
}
