//! The published calls by themselves.

use crate::index::Given;
use bbqvec::doors::{self, Quantization};
use bbqvec::{BF16Quantization, BitVec, Bitmap, CRoaringBitmap, MemoryBackend, NoQuantization, ResultSet, RoaringBitmap};

pub fn sqrt(x: f32) -> f32 {
    x.sqrt()
}

/// bf16 lowering, by the published quantizer; the two bytes that marshal writes, as a number.
pub fn lower(x: f32) -> u16 {
    let low = BF16Quantization::lower(vec![x]).unwrap();
    let mut bytes = [0; 2];
    BF16Quantization::marshal(&low, &mut bytes).unwrap();
    assert_eq!(half::bf16::from_f32(x).to_bits(), u16::from_le_bytes(bytes));
    u16::from_le_bytes(bytes)
}

/// bf16 widening as `compare` does it; the bits as they are, NaNs too.
pub fn widen(h: u16) -> u32 {
    BF16Quantization::unmarshal(&h.to_le_bytes()).unwrap()[0].to_f32().to_bits()
}

/// The bytes that a vector is stored as, by the published quantizer of the mode.
pub fn marshal(mode: usize, v: &[f32], target: &mut [u8]) {
    if mode == 0 {
        NoQuantization::marshal(&NoQuantization::lower(v.to_vec()).unwrap(), target).unwrap()
    } else {
        BF16Quantization::marshal(&BF16Quantization::lower(v.to_vec()).unwrap(), target).unwrap()
    }
}

pub fn unmarshal(mode: usize, bytes: &[u8]) -> Vec<f32> {
    if mode == 0 {
        NoQuantization::unmarshal(bytes).unwrap()
    } else {
        BF16Quantization::unmarshal(bytes).unwrap().iter().map(|h| h.to_f32()).collect()
    }
}

pub fn dot(a: &[f32], b: &[f32]) -> f32 {
    doors::dot(&a.to_vec(), &b.to_vec())
}

pub fn distance(a: &[f32], b: &[f32]) -> f32 {
    bbqvec::vector::distance(&a.to_vec(), &b.to_vec())
}

pub fn normalize(v: &[f32]) -> Vec<f32> {
    let mut v = v.to_vec();
    bbqvec::vector::normalize(&mut v);
    v
}

/// The entries of one basis, row by row.
pub fn orthonormalize(d: usize, rounds: usize, entries: &[f32]) -> Vec<f32> {
    let basis = entries.chunks(d).map(|r| r.to_vec()).collect();
    doors::store::ortho(basis, rounds).concat()
}

/// Does the port accept this normalising? Components finite, the norm neither zero nor infinite, the quotients finite.
pub fn normalizes(v: &[f32]) -> bool {
    let norm = dot(v, v).sqrt();
    v.iter().all(|x| x.is_finite()) && norm.is_finite() && norm != 0.0 && v.iter().all(|x| (x / norm).is_finite())
}

/// Does the port accept this basis? The same steps again, with the paper's test at each; the answers are never taken from here.
pub fn orthonormalizes(d: usize, rounds: usize, entries: &[f32]) -> bool {
    let mut rows: Vec<Vec<f32>> = entries.chunks(d).map(|r| r.to_vec()).collect();
    if !entries.iter().all(|x| x.is_finite()) {
        return false;
    }
    for _ in 0..rounds {
        for i in 0..d {
            if !normalizes(&rows[i]) {
                return false;
            }
            rows[i] = normalize(&rows[i]);
            for j in i + 1..d {
                let t = dot(&rows[i], &rows[j]);
                for c in 0..d {
                    rows[j][c] -= t * rows[i][c];
                }
                if !normalizes(&rows[j]) {
                    return false;
                }
                rows[j] = normalize(&rows[j]);
            }
        }
    }
    true
}

pub fn face(projection: &[f32]) -> i32 {
    doors::store::face(&projection.to_vec())
}

/// The faces picked and the projection afterwards. The loop stands inside the published search and can't be called alone, so it is
/// written here once more over the published find_face_idx. Where the search is affordable it is asked too: it must find just these faces.
pub fn spill(projection: &[f32], spill: usize) -> (Vec<i32>, Vec<f32>) {
    let d = projection.len();
    let picks = if spill >= d { d - 1 } else { spill } + 1;
    let mut proj = projection.to_vec();
    let mut faces = Vec::new();
    for _ in 0..picks {
        let face = doors::store::face(&proj);
        faces.push(face);
        proj[(face.unsigned_abs() - 1) as usize] = 0.0;
    }
    if d <= 64 && projection.iter().all(|x| x.is_finite()) {
        let mut wanted: Vec<i32> = faces.clone();
        wanted.sort();
        wanted.dedup();
        assert_eq!(wanted, faces_searched(projection, spill), "the search picks other faces");
    }
    (faces, proj)
}

/// Which faces the published find_nearest unions, for a target whose projections are these: each face's set holds one id of its own.
fn faces_searched(projection: &[f32], spill: usize) -> Vec<i32> {
    let d = projection.len();
    let unit = |x: f32| {
        let mut v = vec![0.0; d];
        v[0] = x;
        v
    };
    let basis = projection.iter().map(|p| unit(*p)).collect();
    let backend = Given { inner: MemoryBackend::new(d, 1).unwrap(), bases: vec![basis] };
    let mut store = doors::store::VectorStore::new_bitvec_bitmap(backend).unwrap();
    let all: Vec<i32> = (1..=d as i32).flat_map(|f| [f, -f]).collect();
    for id in 0..all.len() {
        store.add_vector(id as u64, &unit(1.0)).unwrap();
    }
    for f in store.faces_known(0) {
        store.give_face_set(0, f, &[]);
    }
    for (id, f) in all.iter().enumerate() {
        store.give_face_set(0, *f, &[id as u64]);
    }
    let found = store.find_nearest(&unit(1.0), all.len(), 0, spill).unwrap();
    let mut faces: Vec<i32> = found.iter_results().map(|r| all[r.id as usize]).collect();
    faces.sort();
    faces
}

pub struct Layers {
    /// The ids of each layer.
    pub layers: Vec<Vec<u64>>,
    pub counts: Vec<usize>,
}

fn set_of<B: Bitmap>(ids: &[u64]) -> B {
    let mut set = B::new();
    for id in ids {
        set.add(*id);
    }
    set
}

fn counted<B: Bitmap>(n: usize, sets: &[Vec<u64>]) -> doors::counting::CountingBitmap<B> {
    let mut counting = doors::counting::CountingBitmap::<B>::new(n);
    for ids in sets {
        counting.or(set_of(ids));
    }
    counting
}

fn layers_by<B: Bitmap>(n: usize, sets: &[Vec<u64>]) -> Layers {
    let counting = counted::<B>(n, sets);
    Layers { layers: counting.layers().iter().map(|l| l.iter_elems().collect()).collect(), counts: counting.cardinalities() }
}

/// The layers after the sets are merged, from empty ones: over BitVec; the other two kinds of set must say the same.
pub fn layers(n: usize, sets: &[Vec<u64>]) -> Layers {
    let by_bits = layers_by::<BitVec>(n, sets);
    for other in [layers_by::<RoaringBitmap>(n, sets), layers_by::<CRoaringBitmap>(n, sets)] {
        assert_eq!((&by_bits.layers, &by_bits.counts), (&other.layers, &other.counts));
    }
    let closed = {
        let mut counting = doors::CountingBitmap::<BitVec>::new(n);
        for ids in sets {
            counting.or(set_of(ids));
        }
        counting.cardinalities()
    };
    assert_eq!(closed, by_bits.counts);
    by_bits
}

/// The number of the layer that top_k hands back.
pub fn top_k(n: usize, sets: &[Vec<u64>], search_k: usize) -> Option<usize> {
    let counting = counted::<BitVec>(n, sets);
    let layers = counting.layers();
    counting.top_k(search_k).map(|found| layers.iter().position(|l| std::ptr::eq(l, found)).unwrap())
}

pub struct List {
    pub entries: Vec<(u64, f32)>,
    pub checked: usize,
}

pub fn list_of(set: &ResultSet) -> List {
    List { entries: set.iter_results().map(|r| (r.id, r.similarity)).collect(), checked: set.checked }
}

pub fn set_fed(k: usize, feeds: &[(u64, f32)]) -> ResultSet {
    let mut set = ResultSet::new(k);
    for (id, score) in feeds {
        set.add_result(*id, *score);
    }
    set
}

pub fn feed(k: usize, feeds: &[(u64, f32)]) -> List {
    list_of(&set_fed(k, feeds))
}

pub fn recall(set: &ResultSet, baseline: &ResultSet, at: usize) -> f64 {
    set.compute_recall(baseline, at)
}

/// Ids of a set written as words, id i as bit i mod 64 of word i div 64.
pub fn ids_of(words: &[u64]) -> Vec<u64> {
    (0..64 * words.len() as u64).filter(|i| words[(i / 64) as usize] >> (i % 64) & 1 == 1).collect()
}

pub fn words_of(ids: &[u64], w: usize) -> Vec<u64> {
    let mut words = vec![0; w];
    for id in ids {
        words[(id / 64) as usize] |= 1 << (id % 64);
    }
    words
}
