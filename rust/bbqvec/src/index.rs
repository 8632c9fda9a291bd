//! The index, with the memory that the calls are lent.
use std::fmt;

use crate::calls::{self, Sizes};
use crate::query::Room;
use crate::{Found, Query, Refusal, Scan, Work};

/// How a component is stored.
#[derive(Clone, Copy, Debug, PartialEq, Eq, Hash)]
#[non_exhaustive]
pub enum Mode {
    /// Four bytes: as it is.
    Full = 0,
    /// Two bytes: rounded to its bf16.
    Half = 1,
}

/// An index: vectors under ids, and the bases by which they are found.
///
/// All its memory is there from the start: about `capacity * dimensions * (4 + bases / 4)` bytes, with 2 for 4 in [`Mode::Half`], and
/// `4 * bases * dimensions * dimensions` for the bases. To fill several indexes at once, clone an empty one with its bases set, and
/// [`merge`](Index::merge) them.
#[derive(Clone)]
pub struct Index {
    d: usize,
    n: usize,
    cap: usize,
    mode: Mode,
    /// Whether a basis was set or taken over: an index without any is free to take those of another.
    given: bool,
    /// Whether anything was added or merged in: the bases are settled from then on.
    settled: bool,
    bases: Vec<f32>,
    faces: Vec<u64>,
    marks: Vec<u64>,
    vectors: Vec<u8>,
    /// What an addition works in.
    work: Vec<f32>,
}

impl Index {
    /// An empty index of `d` dimensions (1 to 1,024) with `n` bases (1 to 32), zeros until they are set, for ids below `capacity` (a multiple of
    /// 64, 64 to 65,536).
    ///
    /// # Errors
    ///
    /// Refuses [`Refusal::Geometry`].
    pub fn new(d: usize, n: usize, capacity: usize, mode: Mode) -> Result<Index, Refusal> {
        let geometry = [d, n, capacity, mode as usize];
        let sizes = Sizes::of(geometry);
        if sizes.marks == 0 {
            return Err(Refusal::Geometry);
        }
        let mut index = Index {
            d,
            n,
            cap: capacity,
            mode,
            given: false,
            settled: false,
            bases: vec![0.0; sizes.bases],
            faces: vec![0; sizes.faces],
            marks: vec![0; sizes.marks],
            vectors: vec![0; sizes.vectors],
            work: vec![0.0; sizes.work],
        };
        calls::new(&mut index.faces, &mut index.marks, &mut index.vectors, geometry)?;
        Ok(index)
    }

    /// How many components a vector has.
    pub fn dimensions(&self) -> usize {
        self.d
    }

    /// How many bases there are.
    pub fn bases(&self) -> usize {
        self.n
    }

    /// The number that every id is below.
    pub fn capacity(&self) -> usize {
        self.cap
    }

    /// How a component is stored.
    pub fn mode(&self) -> Mode {
        self.mode
    }

    fn geometry(&self) -> [usize; 4] {
        [self.d, self.n, self.cap, self.mode as usize]
    }

    /// Whether a vector is held under the id.
    pub fn holds(&self, id: u32) -> bool {
        self.marks.get(id as usize / 64).is_some_and(|word| word >> (id % 64) & 1 == 1)
    }

    /// The ids under which vectors are held, rising.
    pub fn ids(&self) -> impl Iterator<Item = u32> + '_ {
        (0..self.cap as u32).filter(|&id| self.holds(id))
    }

    /// How many vectors are held.
    pub fn len(&self) -> usize {
        self.marks.iter().map(|w| w.count_ones() as usize).sum()
    }

    /// Whether no vector is held.
    pub fn is_empty(&self) -> bool {
        self.marks.iter().all(|&w| w == 0)
    }

    /// Basis `b`, as it was set: `d` vectors of `d` components, one after the other. None if `b` is not below the number of bases.
    pub fn basis(&self, b: usize) -> Option<&[f32]> {
        self.bases.chunks_exact(self.d * self.d).nth(b)
    }

    /// Sets basis `b`: `d` vectors of `d` components, one after the other, used as given. It may be set again until something is added or merged
    /// in.
    ///
    /// # Errors
    ///
    /// Refuses [`Refusal::Geometry`] once something was added or merged in, then [`Refusal::Length`], then [`Refusal::Geometry`] for a `b` that is
    /// not below the number of bases. An entry that is not finite is not refused here, but by additions and searches, as
    /// [`Refusal::Projection`].
    pub fn set_basis(&mut self, b: usize, basis: &[f32]) -> Result<(), Refusal> {
        let size = self.d * self.d;
        if self.settled {
            return Err(Refusal::Geometry);
        }
        if basis.len() != size {
            return Err(Refusal::Length);
        }
        if b >= self.n {
            return Err(Refusal::Geometry);
        }
        self.bases[b * size..(b + 1) * size].copy_from_slice(basis);
        self.given = true;
        Ok(())
    }

    /// Puts the vector into the index under the id. What is stored is the vector divided by its norm. An id that is held already gets the new
    /// vector, but is still found on its older faces too.
    ///
    /// # Errors
    ///
    /// Refuses [`Refusal::Length`], [`Refusal::Id`] for an id that is not below the capacity, [`Refusal::NotFinite`], [`Refusal::NoNorm`],
    /// [`Refusal::Projection`], in this order.
    pub fn add(&mut self, id: u32, vector: &[f32]) -> Result<(), Refusal> {
        let geometry = self.geometry();
        calls::add_vector(&self.bases, &mut self.faces, &mut self.marks, &mut self.vectors, &mut self.work, vector, geometry, id as usize)?;
        self.settled = true;
        Ok(())
    }

    /// Memory for searches of this index, and of every other with the same dimensions, number of bases and capacity.
    pub fn work(&self) -> Work {
        Work::new(&Sizes::of(self.geometry()))
    }

    /// Ranks the candidates that the index has for the target, and lists at most `query.k` of them: **the larger score first**, so that of more
    /// candidates than `k` the farthest are listed. The crate's documentation says [what that means](crate#what-a-list-has) and
    /// [how candidates are chosen](crate#search_k-and-spill).
    ///
    /// Threads may search one index at the same time, each with a [`Work`] of its own.
    ///
    /// # Errors
    ///
    /// Refuses [`Refusal::Length`] for a target of another length than the dimensions and for a `work` of another geometry, [`Refusal::K`] for
    /// more than [`MAX_K`](crate::MAX_K) entries, [`Refusal::NotFinite`], [`Refusal::Projection`], and [`Refusal::NoLayer`] where no layer has
    /// `search_k` ids, in this order.
    ///
    /// ```
    /// use bbqvec::{Index, Mode, Query};
    /// let mut index = Index::new(2, 1, 64, Mode::Full)?;
    /// index.set_basis(0, &[1.0, 0.0, 0.0, 1.0])?;
    /// index.add(7, &[3.0, 0.0])?;
    /// let mut work = index.work();
    /// let found = index.search(&mut work, &[1.0, 0.0], Query::new(5, 1, 0))?;
    /// assert_eq!((found.entries[0].id, found.entries[0].score), (7, 0.0));
    /// # Ok::<(), bbqvec::Refusal>(())
    /// ```
    pub fn search(&self, work: &mut Work, target: &[f32], query: Query) -> Result<Found, Refusal> {
        let mut room = Room::new(query.k);
        let (ids, scores, k) = room.lend();
        let mut told = [0; 3];
        calls::find_nearest(
            &self.bases,
            &self.faces,
            &self.marks,
            &self.vectors,
            &mut work.floats,
            &mut work.layers,
            &mut work.set,
            target,
            ids,
            scores,
            &mut told,
            self.geometry(),
            [k, query.search_k, query.spill],
        )?;
        // the third is how many ids fell off the last layer: it is proved to be 0
        let [len, checked, _] = told;
        Ok(room.found(len, checked))
    }

    /// The same as [`search`](Index::search), in work memory that is made for this one search and then given back: for a search now and then.
    ///
    /// # Errors
    ///
    /// Refuses what [`search`](Index::search) refuses.
    pub fn search_once(&self, target: &[f32], query: Query) -> Result<Found, Refusal> {
        self.search(&mut self.work(), target, query)
    }

    /// Ranks every vector that is held, and lists at most `scan.k` of them as a search does: **the larger score first**, so that of more vectors
    /// than `k` the farthest are listed. It looks at no basis.
    ///
    /// # Errors
    ///
    /// Refuses [`Refusal::Length`], [`Refusal::K`] for more than [`MAX_K`](crate::MAX_K) entries, [`Refusal::NotFinite`], in this order.
    pub fn scan(&self, target: &[f32], scan: Scan) -> Result<Found, Refusal> {
        let mut room = Room::new(scan.k);
        let (ids, scores, k) = room.lend();
        let mut told = [0; 2];
        calls::full_table_scan(&self.marks, &self.vectors, target, ids, scores, &mut told, self.geometry(), k)?;
        let [len, checked] = told;
        Ok(room.found(len, checked))
    }

    /// Joins another index, which stays as it is, to this one: its vectors under their ids. What two indexes of the same bases hold after merging
    /// is what one index holds that was given all their vectors.
    ///
    /// An index is fresh while no basis was set and nothing was added or merged in. A fresh index takes over the bases of the other; a fresh other
    /// has nothing to join.
    ///
    /// # Errors
    ///
    /// Refuses [`Refusal::Geometry`] for another geometry (the store mode is part of it), [`Refusal::OtherBases`] where neither is fresh and any
    /// bit of their bases differs, and [`Refusal::SharedId`] where both hold some id, in this order.
    pub fn merge(&mut self, other: &Index) -> Result<(), Refusal> {
        let geometry = self.geometry();
        if geometry != other.geometry() {
            return Err(Refusal::Geometry);
        }
        if other.is_fresh() {
            return Ok(());
        }
        let takes_over = self.is_fresh();
        if !takes_over && !same_bits(&self.bases, &other.bases) {
            return Err(Refusal::OtherBases);
        }
        calls::merge(&mut self.faces, &mut self.marks, &mut self.vectors, &other.faces, &other.marks, &other.vectors, geometry)?;
        if takes_over {
            self.bases.copy_from_slice(&other.bases);
        }
        self.given |= other.given;
        self.settled |= other.settled;
        Ok(())
    }

    fn is_fresh(&self) -> bool {
        !self.given && !self.settled
    }
}

/// Not equality of floats, which takes -0.0 for 0.0 and no NaN for itself.
fn same_bits(a: &[f32], b: &[f32]) -> bool {
    a.len() == b.len() && a.iter().zip(b).all(|(x, y)| x.to_bits() == y.to_bits())
}

/// The geometry and how many vectors are held, not the memory.
impl fmt::Debug for Index {
    fn fmt(&self, f: &mut fmt::Formatter<'_>) -> fmt::Result {
        f.debug_struct("Index")
            .field("dimensions", &self.d)
            .field("bases", &self.n)
            .field("capacity", &self.cap)
            .field("mode", &self.mode)
            .field("len", &self.len())
            .finish_non_exhaustive()
    }
}
