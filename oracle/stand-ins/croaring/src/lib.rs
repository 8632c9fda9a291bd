//! Stands in for the crate croaring, which wraps a library in C.
//! bitmaps.rs names the type and calls these methods; an ordered set of 32-bit numbers answers them.
//! No answer of the oracle rests on this type alone: index runs use BitVec, and the other two kinds of set are run beside it and must agree.

use std::collections::BTreeSet;

#[derive(Debug, Default, Clone)]
pub struct Bitmap(BTreeSet<u32>);

/// The serialisation that bitmaps.rs asks the size of.
pub struct Native;

impl Bitmap {
    pub fn new() -> Self {
        Self(BTreeSet::new())
    }

    pub fn is_empty(&self) -> bool {
        self.0.is_empty()
    }

    pub fn cardinality(&self) -> u64 {
        self.0.len() as u64
    }

    pub fn add(&mut self, id: u32) {
        self.0.insert(id);
    }

    pub fn iter(&self) -> impl Iterator<Item = u32> + '_ {
        self.0.iter().copied()
    }

    pub fn andnot_inplace(&mut self, rhs: &Self) {
        self.0 = &self.0 - &rhs.0;
    }

    pub fn or_inplace(&mut self, rhs: &Self) {
        self.0.extend(&rhs.0);
    }

    pub fn xor_inplace(&mut self, rhs: &Self) {
        self.0 = &self.0 ^ &rhs.0;
    }

    /// A size is an estimate for the caller; nothing here reads it.
    pub fn get_serialized_size_in_bytes<S>(&self) -> usize {
        4 * self.0.len()
    }
}
