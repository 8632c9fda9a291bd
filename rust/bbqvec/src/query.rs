//! What is asked, and what comes back.

/// The most entries that a list may have. A larger `k` is [`Refusal::K`](crate::Refusal::K).
pub const MAX_K: usize = 256;

/// What a search is asked for, beside its target: the length of the list and the choice of candidates.
///
/// The crate's documentation says [how to choose](crate#search_k-and-spill) `search_k` and `spill`.
#[derive(Clone, Copy, Debug, PartialEq, Eq, Hash)]
#[non_exhaustive]
pub struct Query {
    /// The most entries to list, 0 to [`MAX_K`]. Of more candidates than this the farthest are listed.
    pub k: usize,
    /// The least number of candidates: those of the highest counting layer with at least as many ids are ranked. With 0 it is the last layer,
    /// even an empty one.
    pub search_k: usize,
    /// How many more faces than one to look at in each basis. From d - 1 on, d being the dimensions, a larger one changes nothing.
    pub spill: usize,
}

impl Query {
    /// A query with these numbers.
    pub const fn new(k: usize, search_k: usize, spill: usize) -> Query {
        Query { k, search_k, spill }
    }
}

/// What a scan is asked for, beside its target: the length of the list.
#[derive(Clone, Copy, Debug, PartialEq, Eq, Hash)]
#[non_exhaustive]
pub struct Scan {
    /// The most entries to list, 0 to [`MAX_K`]. Of more vectors than this the farthest are listed.
    pub k: usize,
}

impl Scan {
    /// A scan for at most `k` entries.
    pub const fn new(k: usize) -> Scan {
        Scan { k }
    }
}

/// One entry of a list.
#[derive(Clone, Copy, Debug, PartialEq)]
#[non_exhaustive]
pub struct Entry {
    /// The id under which the vector was added.
    pub id: u32,
    /// The Euclidean distance from the target as given to the stored vector. It is never NaN, and infinite only where the squares of the
    /// differences add up to more than a float can hold.
    pub score: f32,
}

/// What a search or a scan found.
#[derive(Clone, Debug, PartialEq)]
#[non_exhaustive]
pub struct Found {
    /// The list: the larger score first, of equal scores the lower id. Its length is the smaller of `k` and `checked`.
    pub entries: Vec<Entry>,
    /// How many ids were ranked: all candidates of a search, all held ids of a scan. If it is more than `entries.len()`, the others were left
    /// out, and each of them is at least as near to the target as every entry.
    pub checked: u32,
}

/// The places that a list is written into.
pub(crate) struct Room {
    k: usize,
    ids: [u32; MAX_K + 1],
    scores: [f32; MAX_K + 1],
}

impl Room {
    /// Room for the k entries that are asked for. Every k over [`MAX_K`] is refused alike, so it stands for all of them to ask for one more than
    /// that: the call itself then refuses, in its own order.
    pub fn new(k: usize) -> Room {
        Room { k: k.min(MAX_K + 1), ids: [0; MAX_K + 1], scores: [0.0; MAX_K + 1] }
    }

    /// Places for ids and scores, and their number.
    pub fn lend(&mut self) -> (&mut [u32], &mut [f32], usize) {
        (&mut self.ids[..self.k], &mut self.scores[..self.k], self.k)
    }

    /// What the first `len` places hold.
    pub fn found(&self, len: u32, checked: u32) -> Found {
        let pairs = self.ids.iter().zip(&self.scores).take(len as usize);
        Found { entries: pairs.map(|(&id, &score)| Entry { id, score }).collect(), checked }
    }
}
