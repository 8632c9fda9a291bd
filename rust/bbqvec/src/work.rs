//! The memory that a search works in.
use std::fmt;

use crate::calls::Sizes;

/// The memory that a search works in, made by [`Index::work`](crate::Index::work). Make one for each thread and use it again and again: no search
/// leaves anything in it that another could see.
///
/// It serves every index of the same dimensions, number of bases and capacity, whatever the store mode. With any other, a search refuses
/// [`Refusal::Length`](crate::Refusal::Length).
#[derive(Clone)]
pub struct Work {
    pub(crate) floats: Vec<f32>,
    pub(crate) layers: Vec<u64>,
    pub(crate) set: Vec<u64>,
}

impl Work {
    pub(crate) fn new(sizes: &Sizes) -> Work {
        Work { floats: vec![0.0; sizes.work], layers: vec![0; sizes.layers], set: vec![0; sizes.set] }
    }
}

/// The geometry, not the memory.
impl fmt::Debug for Work {
    fn fmt(&self, f: &mut fmt::Formatter<'_>) -> fmt::Result {
        f.debug_struct("Work")
            .field("dimensions", &self.floats.len())
            .field("bases", &(self.layers.len() / self.set.len()))
            .field("capacity", &(self.set.len() * 64))
            .finish_non_exhaustive()
    }
}
