//! Whole index runs, with bases given by a backend of the oracle's own.

use crate::calls::{list_of, List};
use anyhow::Result;
use bbqvec::backend::BackendInfo;
use bbqvec::doors::{self, Quantization};
use bbqvec::{
    BF16Quantization, Basis, BitVec, Bitmap, CRoaringBitmap, NoQuantization, QuantizedMemoryBackend, ResultSet, RoaringBitmap, Vector, VectorBackend,
    VectorStore, ID,
};

include!("given.rs");

/// What a run can be asked.
pub trait Index {
    fn add(&mut self, id: u64, v: &[f32]) -> Result<()>;
    fn find(&self, target: &[f32], k: usize, search_k: usize, spill: usize) -> Result<List>;
    fn scan(&self, target: &[f32], k: usize) -> Result<List>;
    fn face_set(&self, basis: usize, face: i32) -> Vec<u64>;
    /// The stored bytes of an id, as marshal writes them.
    fn stored(&self, id: u64) -> Option<Vec<u8>>;
}

type Closed<Q, B> = VectorStore<Given<QuantizedMemoryBackend<Q>>, B>;
type Opened<Q> = doors::store::VectorStore<Given<doors::memory::QuantizedMemoryBackend<Q>>, BitVec>;

/// The published store over each kind of set, and its twin with doors; all four are fed alike and must answer alike.
struct Run<Q: Quantization> {
    d: usize,
    bits: Closed<Q, BitVec>,
    roaring: Closed<Q, RoaringBitmap>,
    croaring: Closed<Q, CRoaringBitmap>,
    opened: Opened<Q>,
}

impl<Q: Quantization> Run<Q> {
    fn new(d: usize, bases: Vec<Basis>) -> Result<Self> {
        let n = bases.len();
        let given = || -> Result<_> { Ok(Given { inner: QuantizedMemoryBackend::<Q>::new(d, n)?, bases: bases.clone() }) };
        let opened = Given { inner: doors::memory::QuantizedMemoryBackend::<Q>::new(d, n)?, bases: bases.clone() };
        Ok(Self {
            d,
            bits: VectorStore::new_bitvec_bitmap(given()?)?,
            roaring: VectorStore::new_roaring_bitmap(given()?)?,
            croaring: VectorStore::new(given()?)?,
            opened: doors::store::VectorStore::new_bitvec_bitmap(opened)?,
        })
    }
}

/// The one answer, if all agree.
fn agreed(answers: [Result<ResultSet>; 4]) -> Result<List> {
    let show = |r: &Result<ResultSet>| match r {
        Ok(set) => {
            let l = list_of(set);
            let entries: Vec<(u64, u32)> = l.entries.iter().map(|(id, s)| (*id, crate::text::bits(*s))).collect();
            format!("{entries:?} {}", l.checked)
        }
        Err(e) => e.to_string(),
    };
    for other in &answers[1..] {
        assert_eq!(show(&answers[0]), show(other), "the stores disagree");
    }
    let [first, ..] = answers;
    Ok(list_of(&first?))
}

impl<Q: Quantization> Index for Run<Q> {
    fn add(&mut self, id: u64, v: &[f32]) -> Result<()> {
        let v = v.to_vec();
        self.bits.add_vector(id, &v)?;
        self.roaring.add_vector(id, &v)?;
        self.croaring.add_vector(id, &v)?;
        self.opened.add_vector(id, &v)
    }

    fn find(&self, target: &[f32], k: usize, search_k: usize, spill: usize) -> Result<List> {
        let t = target.to_vec();
        agreed([
            self.bits.find_nearest(&t, k, search_k, spill),
            self.roaring.find_nearest(&t, k, search_k, spill),
            self.croaring.find_nearest(&t, k, search_k, spill),
            self.opened.find_nearest(&t, k, search_k, spill),
        ])
    }

    fn scan(&self, target: &[f32], k: usize) -> Result<List> {
        let t = target.to_vec();
        agreed([
            self.bits.full_table_scan(&t, k),
            self.roaring.full_table_scan(&t, k),
            self.croaring.full_table_scan(&t, k),
            self.opened.full_table_scan(&t, k),
        ])
    }

    fn face_set(&self, basis: usize, face: i32) -> Vec<u64> {
        self.opened.face_set(basis, face)
    }

    fn stored(&self, id: u64) -> Option<Vec<u8>> {
        let low = self.opened.backend().inner.stored(id)?;
        let mut bytes = vec![0; Q::vector_size(self.d)];
        Q::marshal(low, &mut bytes).unwrap();
        Some(bytes)
    }
}

/// A run over these bases; n·d·d entries, in the order of the paper's memory.
pub fn run(d: usize, n: usize, mode: usize, entries: &[f32]) -> Result<Box<dyn Index>> {
    assert_eq!(entries.len(), n * d * d);
    let bases: Vec<Basis> = entries.chunks(d * d).map(|b| b.chunks(d).map(|r| r.to_vec()).collect()).collect();
    Ok(match mode {
        0 => Box::new(Run::<NoQuantization>::new(d, bases)?),
        _ => Box::new(Run::<BF16Quantization>::new(d, bases)?),
    })
}

/// Face sets, present marks and stored vectors, laid out as the paper's memory.
pub struct Memory {
    pub faces: Vec<u64>,
    pub marks: Vec<u64>,
    pub vectors: Vec<u8>,
}

pub fn memory(index: &dyn Index, d: usize, n: usize, capacity: usize, mode: usize) -> Memory {
    let w = capacity / 64;
    let size = if mode == 0 { 4 * d } else { 2 * d };
    let mut m = Memory { faces: vec![0; n * 2 * d * w], marks: vec![0; w], vectors: vec![0; capacity * size] };
    for b in 0..n {
        for slot in 0..2 * d {
            let face = if slot < d { slot as i32 + 1 } else { -((slot - d) as i32 + 1) };
            let at = (b * 2 * d + slot) * w;
            m.faces[at..at + w].copy_from_slice(&crate::calls::words_of(&index.face_set(b, face), w));
        }
    }
    for id in 0..capacity {
        if let Some(bytes) = index.stored(id as u64) {
            m.marks[id / 64] |= 1 << (id % 64);
            m.vectors[id * size..(id + 1) * size].copy_from_slice(&bytes);
        }
    }
    m
}
