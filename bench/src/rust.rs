// One build of the published Rust; `bbqvec` names which. Included once for each.

use crate::{Contender, Filler, Found};
use anyhow::Result;
use bbqvec::backend::BackendInfo;
use bbqvec::doors::{store::VectorStore, Quantization};
use bbqvec::{BF16Quantization, Basis, BitVec, Bitmap, NoQuantization, QuantizedMemoryBackend, ResultSet, RoaringBitmap, Vector, VectorBackend, ID};

include!("../../oracle/judge/src/given.rs");

/// Vectors first, then the store around them.
struct Filling<Q: Quantization> {
    inner: QuantizedMemoryBackend<Q>,
    roaring: bool,
}

struct Store<Q: Quantization, B: Bitmap>(VectorStore<Given<QuantizedMemoryBackend<Q>>, B>);

impl<Q: Quantization + 'static> Filler for Filling<Q> {
    fn put(&mut self, id: u64, v: &Vec<f32>) {
        self.inner.put_vector(id, v).unwrap();
    }

    fn finish(self: Box<Self>, d: usize, bases: &[f32], sets: &mut dyn FnMut(usize, i32) -> Vec<u64>) -> Box<dyn Contender> {
        let n = bases.len() / (d * d);
        let bases: Vec<Basis> = bases.chunks(d * d).map(|b| b.chunks(d).map(|r| r.to_vec()).collect()).collect();
        let given = Given { inner: self.inner, bases };
        if self.roaring {
            filled(VectorStore::<_, RoaringBitmap>::new_vector_store(given).unwrap(), d, n, sets)
        } else {
            filled(VectorStore::<_, BitVec>::new_vector_store(given).unwrap(), d, n, sets)
        }
    }
}

fn filled<Q: Quantization + 'static, B: Bitmap + 'static>(
    mut store: VectorStore<Given<QuantizedMemoryBackend<Q>>, B>, d: usize, n: usize, sets: &mut dyn FnMut(usize, i32) -> Vec<u64>,
) -> Box<dyn Contender> {
    for b in 0..n {
        for f in (1..=d as i32).flat_map(|f| [f, -f]) {
            store.give_face_set(b, f, &sets(b, f));
        }
    }
    Box::new(Store(store))
}

fn told(set: ResultSet) -> Found {
    Found { ids: set.iter_results().map(|r| r.id as u32).collect(), checked: set.checked }
}

impl<Q: Quantization, B: Bitmap> Contender for Store<Q, B> {
    fn add(&mut self, id: u64, v: &Vec<f32>) {
        self.0.add_vector(id, v).unwrap();
    }
    fn find(&mut self, target: &Vec<f32>, k: usize, search_k: usize, spill: usize) {
        std::hint::black_box(self.0.find_nearest(target, k, search_k, spill).unwrap());
    }
    fn scan(&mut self, target: &Vec<f32>, k: usize) {
        std::hint::black_box(self.0.full_table_scan(target, k).unwrap());
    }
    fn found(&mut self, target: &Vec<f32>, k: usize, search_k: usize, spill: usize) -> Found {
        told(self.0.find_nearest(target, k, search_k, spill).unwrap())
    }
    fn scanned(&mut self, target: &Vec<f32>, k: usize) -> Found {
        told(self.0.full_table_scan(target, k).unwrap())
    }
}

pub fn filling(d: usize, n: usize, mode: usize, roaring: bool) -> Box<dyn Filler> {
    match mode {
        0 => Box::new(Filling { inner: QuantizedMemoryBackend::<NoQuantization>::new(d, n).unwrap(), roaring }),
        _ => Box::new(Filling { inner: QuantizedMemoryBackend::<BF16Quantization>::new(d, n).unwrap(), roaring }),
    }
}
