//! The boundary: the calls as C has them, each behind a safe function that lends slices. All `unsafe` of the crate is here.
#![allow(unsafe_code)]
use crate::Refusal;

mod raw {
    extern "C" {
        pub fn bbq_sqrt(bits: u32) -> u32;
        pub fn bbq_lower(bits: u32) -> u16;
        pub fn bbq_widen(half: u16) -> u32;
        pub fn bbq_bases_len(d: usize, n: usize, cap: usize, mode: usize) -> usize;
        pub fn bbq_faces_len(d: usize, n: usize, cap: usize, mode: usize) -> usize;
        pub fn bbq_marks_len(d: usize, n: usize, cap: usize, mode: usize) -> usize;
        pub fn bbq_vectors_len(d: usize, n: usize, cap: usize, mode: usize) -> usize;
        pub fn bbq_work_len(d: usize, n: usize, cap: usize, mode: usize) -> usize;
        pub fn bbq_layers_len(d: usize, n: usize, cap: usize, mode: usize) -> usize;
        pub fn bbq_set_len(d: usize, n: usize, cap: usize, mode: usize) -> usize;
        pub fn bbq_normalize(v: *mut f32, v_len: usize) -> u32;
        pub fn bbq_orthonormalize(basis: *const f32, basis_len: usize, out: *mut f32, out_len: usize, d: usize, rounds: usize) -> u32;
        pub fn bbq_new(
            faces: *mut u64, faces_len: usize, marks: *mut u64, marks_len: usize, vectors: *mut u8, vectors_len: usize, d: usize, n: usize,
            cap: usize, mode: usize,
        ) -> u32;
        pub fn bbq_add_vector(
            bases: *const f32, bases_len: usize, faces: *mut u64, faces_len: usize, marks: *mut u64, marks_len: usize, vectors: *mut u8,
            vectors_len: usize, work: *mut f32, work_len: usize, vector: *const f32, vector_len: usize, d: usize, n: usize, cap: usize, mode: usize,
            id: usize,
        ) -> u32;
        pub fn bbq_find_nearest(
            bases: *const f32, bases_len: usize, faces: *const u64, faces_len: usize, marks: *const u64, marks_len: usize, vectors: *const u8,
            vectors_len: usize, work: *mut f32, work_len: usize, layers: *mut u64, layers_len: usize, set: *mut u64, set_len: usize,
            target: *const f32, target_len: usize, ids: *mut u32, ids_len: usize, scores: *mut f32, scores_len: usize, told: *mut u32,
            told_len: usize, d: usize, n: usize, cap: usize, mode: usize, k: usize, search_k: usize, spill: usize,
        ) -> u32;
        pub fn bbq_full_table_scan(
            marks: *const u64, marks_len: usize, vectors: *const u8, vectors_len: usize, target: *const f32, target_len: usize, ids: *mut u32,
            ids_len: usize, scores: *mut f32, scores_len: usize, told: *mut u32, told_len: usize, d: usize, n: usize, cap: usize, mode: usize,
            k: usize,
        ) -> u32;
        pub fn bbq_merge(
            faces: *mut u64, faces_len: usize, marks: *mut u64, marks_len: usize, vectors: *mut u8, vectors_len: usize, faces2: *const u64,
            faces2_len: usize, marks2: *const u64, marks2_len: usize, vectors2: *const u8, vectors2_len: usize, d: usize, n: usize, cap: usize,
            mode: usize,
        ) -> u32;
    }
}

// What makes every call below sound: a slice's pointer is not null and is aligned, also when it is empty, and its elements are
// there for as long as it is borrowed; a `&mut` slice overlaps nothing else, and no other thread reads or writes it. The calls are
// proved to touch nothing outside what they are lent, to write only to what is lent to be written, and to end, whatever the numbers
// are.

fn told(number: u32) -> Result<(), Refusal> {
    Refusal::of(number).map_or(Ok(()), Err)
}

/// How much to lend; zeros for a geometry that is refused.
pub struct Sizes {
    pub bases: usize,
    pub faces: usize,
    pub marks: usize,
    pub vectors: usize,
    pub work: usize,
    pub layers: usize,
    pub set: usize,
}

impl Sizes {
    pub fn of([d, n, cap, mode]: [usize; 4]) -> Sizes {
        // SAFETY: numbers in, a number out.
        unsafe {
            Sizes {
                bases: raw::bbq_bases_len(d, n, cap, mode),
                faces: raw::bbq_faces_len(d, n, cap, mode),
                marks: raw::bbq_marks_len(d, n, cap, mode),
                vectors: raw::bbq_vectors_len(d, n, cap, mode),
                work: raw::bbq_work_len(d, n, cap, mode),
                layers: raw::bbq_layers_len(d, n, cap, mode),
                set: raw::bbq_set_len(d, n, cap, mode),
            }
        }
    }
}

pub fn sqrt(bits: u32) -> u32 {
    // SAFETY: a number in, a number out.
    unsafe { raw::bbq_sqrt(bits) }
}

pub fn lower(bits: u32) -> u16 {
    // SAFETY: a number in, a number out.
    unsafe { raw::bbq_lower(bits) }
}

pub fn widen(half: u16) -> u32 {
    // SAFETY: a number in, a number out.
    unsafe { raw::bbq_widen(half) }
}

pub fn normalize(v: &mut [f32]) -> Result<(), Refusal> {
    // SAFETY: slices, lent for the call.
    told(unsafe { raw::bbq_normalize(v.as_mut_ptr(), v.len()) })
}

pub fn orthonormalize(basis: &[f32], out: &mut [f32], d: usize, rounds: usize) -> Result<(), Refusal> {
    // SAFETY: slices, lent for the call.
    told(unsafe { raw::bbq_orthonormalize(basis.as_ptr(), basis.len(), out.as_mut_ptr(), out.len(), d, rounds) })
}

pub fn new(faces: &mut [u64], marks: &mut [u64], vectors: &mut [u8], [d, n, cap, mode]: [usize; 4]) -> Result<(), Refusal> {
    // SAFETY: slices, lent for the call.
    told(unsafe {
        raw::bbq_new(faces.as_mut_ptr(), faces.len(), marks.as_mut_ptr(), marks.len(), vectors.as_mut_ptr(), vectors.len(), d, n, cap, mode)
    })
}

#[allow(clippy::too_many_arguments)]
pub fn add_vector(
    bases: &[f32], faces: &mut [u64], marks: &mut [u64], vectors: &mut [u8], work: &mut [f32], vector: &[f32], [d, n, cap, mode]: [usize; 4],
    id: usize,
) -> Result<(), Refusal> {
    // SAFETY: slices, lent for the call.
    told(unsafe {
        raw::bbq_add_vector(
            bases.as_ptr(),
            bases.len(),
            faces.as_mut_ptr(),
            faces.len(),
            marks.as_mut_ptr(),
            marks.len(),
            vectors.as_mut_ptr(),
            vectors.len(),
            work.as_mut_ptr(),
            work.len(),
            vector.as_ptr(),
            vector.len(),
            d,
            n,
            cap,
            mode,
            id,
        )
    })
}

#[allow(clippy::too_many_arguments)]
pub fn find_nearest(
    bases: &[f32], faces: &[u64], marks: &[u64], vectors: &[u8], work: &mut [f32], layers: &mut [u64], set: &mut [u64], target: &[f32],
    ids: &mut [u32], scores: &mut [f32], numbers: &mut [u32; 3], [d, n, cap, mode]: [usize; 4], [k, search_k, spill]: [usize; 3],
) -> Result<(), Refusal> {
    // SAFETY: slices, lent for the call.
    told(unsafe {
        raw::bbq_find_nearest(
            bases.as_ptr(),
            bases.len(),
            faces.as_ptr(),
            faces.len(),
            marks.as_ptr(),
            marks.len(),
            vectors.as_ptr(),
            vectors.len(),
            work.as_mut_ptr(),
            work.len(),
            layers.as_mut_ptr(),
            layers.len(),
            set.as_mut_ptr(),
            set.len(),
            target.as_ptr(),
            target.len(),
            ids.as_mut_ptr(),
            ids.len(),
            scores.as_mut_ptr(),
            scores.len(),
            numbers.as_mut_ptr(),
            numbers.len(),
            d,
            n,
            cap,
            mode,
            k,
            search_k,
            spill,
        )
    })
}

#[allow(clippy::too_many_arguments)]
pub fn full_table_scan(
    marks: &[u64], vectors: &[u8], target: &[f32], ids: &mut [u32], scores: &mut [f32], numbers: &mut [u32; 2], [d, n, cap, mode]: [usize; 4],
    k: usize,
) -> Result<(), Refusal> {
    // SAFETY: slices, lent for the call.
    told(unsafe {
        raw::bbq_full_table_scan(
            marks.as_ptr(),
            marks.len(),
            vectors.as_ptr(),
            vectors.len(),
            target.as_ptr(),
            target.len(),
            ids.as_mut_ptr(),
            ids.len(),
            scores.as_mut_ptr(),
            scores.len(),
            numbers.as_mut_ptr(),
            numbers.len(),
            d,
            n,
            cap,
            mode,
            k,
        )
    })
}

pub fn merge(
    faces: &mut [u64], marks: &mut [u64], vectors: &mut [u8], faces2: &[u64], marks2: &[u64], vectors2: &[u8], [d, n, cap, mode]: [usize; 4],
) -> Result<(), Refusal> {
    // SAFETY: slices, lent for the call.
    told(unsafe {
        raw::bbq_merge(
            faces.as_mut_ptr(),
            faces.len(),
            marks.as_mut_ptr(),
            marks.len(),
            vectors.as_mut_ptr(),
            vectors.len(),
            faces2.as_ptr(),
            faces2.len(),
            marks2.as_ptr(),
            marks2.len(),
            vectors2.as_ptr(),
            vectors2.len(),
            d,
            n,
            cap,
            mode,
        )
    })
}
