//! What the tests share.
#![allow(dead_code)]
use bbqvec::{Found, Index, Mode};

/// The unit vectors of two dimensions.
pub const UNIT: [f32; 4] = [1.0, 0.0, 0.0, 1.0];

/// An empty index of two dimensions with one basis, the unit vectors.
pub fn small(mode: Mode) -> Index {
    let mut index = Index::new(2, 1, 64, mode).unwrap();
    index.set_basis(0, &UNIT).unwrap();
    index
}

pub fn pairs(found: &Found) -> Vec<(u32, f32)> {
    found.entries.iter().map(|e| (e.id, e.score)).collect()
}

/// A sequence of numbers, the same at every run.
pub struct Numbers(pub u64);

impl Numbers {
    pub fn next(&mut self) -> u64 {
        self.0 ^= self.0 << 13;
        self.0 ^= self.0 >> 7;
        self.0 ^= self.0 << 17;
        self.0
    }

    pub fn below(&mut self, end: usize) -> usize {
        (self.next() % end as u64) as usize
    }

    pub fn vector(&mut self, d: usize) -> Vec<f32> {
        (0..d).map(|_| self.below(2001) as f32 / 100.0 - 10.0).collect()
    }

    /// An orthonormal basis of d dimensions.
    pub fn basis(&mut self, d: usize) -> Vec<f32> {
        loop {
            // a draw may have a row without direction of its own
            if let Ok(basis) = bbqvec::orthonormalize(&self.vector(d * d), d, 2) {
                return basis;
            }
        }
    }

    /// An empty index with n such bases.
    pub fn index(&mut self, d: usize, n: usize, capacity: usize, mode: Mode) -> Index {
        let mut index = Index::new(d, n, capacity, mode).unwrap();
        for b in 0..n {
            index.set_basis(b, &self.basis(d)).unwrap();
        }
        index
    }
}
