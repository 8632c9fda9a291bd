//! The port's calls as its C header declares them. This file alone knows their names and the order of their arguments; everything else goes
//! through the methods of `Port`. A slice is a pointer, then a length; each call answers the refusal's number unless it answers a value.

use crate::stub;

// Declared here, since the bench takes this file and stub.rs alone.
#[allow(dead_code)]
#[path = "through.rs"]
pub mod through;

macro_rules! calls {
    ($($name:ident($($arg:ident: $kind:ty),*) -> $answer:ty;)*) => {
        #[cfg(port)]
        extern "C" {
            $(fn $name($($arg: $kind),*) -> $answer;)*
        }

        /// The linked port, a program that is asked through a pipe, or the stub.
        pub struct Port {
            $($name: unsafe extern "C" fn($($kind),*) -> $answer,)*
            piped: bool,
        }

        mod piped {
            use super::through::{Argument, Question};
            $(pub unsafe extern "C" fn $name($($arg: $kind),*) -> $answer {
                let mut q = Question::new(stringify!($name));
                $($arg.put(&mut q);)*
                q.answer() as $answer
            })*
        }

        #[allow(dead_code)]
        pub const NAMES: &[&str] = &[$(stringify!($name)),*];

        impl Port {
            #[cfg(port)]
            pub fn linked() -> Option<Self> {
                Some(Self { $($name,)* piped: false })
            }

            #[cfg(not(port))]
            pub fn linked() -> Option<Self> {
                None
            }

            pub fn stub() -> Self {
                Self { $($name: stub::$name,)* piped: false }
            }

            /// The program that `through::start` started.
            #[allow(dead_code)]
            pub fn through() -> Self {
                Self { $($name: piped::$name,)* piped: true }
            }
        }
    };
}

calls! {
    bbq_sqrt(bits: u32) -> u32;
    bbq_lower(bits: u32) -> u16;
    bbq_widen(half: u16) -> u32;

    bbq_bases_len(d: usize, n: usize, cap: usize, mode: usize) -> usize;
    bbq_faces_len(d: usize, n: usize, cap: usize, mode: usize) -> usize;
    bbq_marks_len(d: usize, n: usize, cap: usize, mode: usize) -> usize;
    bbq_vectors_len(d: usize, n: usize, cap: usize, mode: usize) -> usize;
    bbq_work_len(d: usize, n: usize, cap: usize, mode: usize) -> usize;
    bbq_layers_len(d: usize, n: usize, cap: usize, mode: usize) -> usize;
    bbq_set_len(d: usize, n: usize, cap: usize, mode: usize) -> usize;

    bbq_dot_product(a: *const f32, a_len: usize, b: *const f32, b_len: usize, out: *mut f32, out_len: usize) -> u32;
    bbq_distance(a: *const f32, a_len: usize, b: *const f32, b_len: usize, out: *mut f32, out_len: usize) -> u32;
    bbq_normalize(v: *mut f32, v_len: usize) -> u32;
    bbq_orthonormalize(basis: *const f32, basis_len: usize, out: *mut f32, out_len: usize, d: usize, rounds: usize) -> u32;
    bbq_find_face_idx(projection: *const f32, projection_len: usize, out: *mut i32, out_len: usize) -> u32;
    bbq_spill_faces(projection: *mut f32, projection_len: usize, spill: usize, faces: *mut i32, faces_len: usize) -> u32;

    bbq_counting_or(layers: *mut u64, layers_len: usize, set: *mut u64, set_len: usize, cap: usize, n: usize,
        dropped: *mut u32, dropped_len: usize) -> u32;
    bbq_top_k(layers: *const u64, layers_len: usize, cap: usize, n: usize, search_k: usize, layer: *mut usize, layer_len: usize) -> u32;
    bbq_feed(k: usize, ids: *const u32, ids_len: usize, scores: *const f32, scores_len: usize, out_ids: *mut u32, out_ids_len: usize,
        out_scores: *mut f32, out_scores_len: usize, told: *mut u32, told_len: usize) -> u32;

    bbq_new(faces: *mut u64, faces_len: usize, marks: *mut u64, marks_len: usize, vectors: *mut u8, vectors_len: usize,
        d: usize, n: usize, cap: usize, mode: usize) -> u32;
    bbq_add_vector(bases: *const f32, bases_len: usize, faces: *mut u64, faces_len: usize, marks: *mut u64, marks_len: usize,
        vectors: *mut u8, vectors_len: usize, work: *mut f32, work_len: usize, vector: *const f32, vector_len: usize,
        d: usize, n: usize, cap: usize, mode: usize, id: usize) -> u32;
    bbq_find_nearest(bases: *const f32, bases_len: usize, faces: *const u64, faces_len: usize, marks: *const u64, marks_len: usize,
        vectors: *const u8, vectors_len: usize, work: *mut f32, work_len: usize, layers: *mut u64, layers_len: usize,
        set: *mut u64, set_len: usize, target: *const f32, target_len: usize, ids: *mut u32, ids_len: usize,
        scores: *mut f32, scores_len: usize, told: *mut u32, told_len: usize,
        d: usize, n: usize, cap: usize, mode: usize, k: usize, search_k: usize, spill: usize) -> u32;
    bbq_full_table_scan(marks: *const u64, marks_len: usize, vectors: *const u8, vectors_len: usize, target: *const f32, target_len: usize,
        ids: *mut u32, ids_len: usize, scores: *mut f32, scores_len: usize, told: *mut u32, told_len: usize,
        d: usize, n: usize, cap: usize, mode: usize, k: usize) -> u32;
    bbq_merge(faces: *mut u64, faces_len: usize, marks: *mut u64, marks_len: usize, vectors: *mut u8, vectors_len: usize,
        faces2: *const u64, faces2_len: usize, marks2: *const u64, marks2_len: usize, vectors2: *const u8, vectors2_len: usize,
        d: usize, n: usize, cap: usize, mode: usize) -> u32;
}

/// How many numbers a search tells: the list's length, how many were ranked, how many were dropped (always 0).
#[allow(dead_code)]
pub const SEARCH_TOLD: usize = 3;

#[derive(Clone, Copy, Debug, PartialEq)]
pub struct Geometry {
    pub d: usize,
    pub n: usize,
    pub cap: usize,
    pub mode: usize,
}

/// What is to be lent, in floats, words and bytes.
#[derive(Clone, Copy, Debug, PartialEq)]
pub struct Sizes {
    pub bases: usize,
    pub faces: usize,
    pub marks: usize,
    pub vectors: usize,
    pub work: usize,
    pub layers: usize,
    pub set: usize,
}

/// An index in lent memory.
#[derive(Clone, Debug, PartialEq)]
pub struct Lent {
    pub faces: Vec<u64>,
    pub marks: Vec<u64>,
    pub vectors: Vec<u8>,
}

/// Work memory.
#[derive(Clone, Debug)]
pub struct Work {
    pub floats: Vec<f32>,
    pub layers: Vec<u64>,
    pub set: Vec<u64>,
}

/// Where a list goes.
#[derive(Clone, Debug)]
pub struct Out {
    pub ids: Vec<u32>,
    pub scores: Vec<f32>,
    pub told: Vec<u32>,
}

#[allow(dead_code)]
impl Port {
    /// Does each call take all its memory to another program and back?
    pub fn piped(&self) -> bool {
        self.piped
    }

    pub fn sqrt(&self, bits: u32) -> u32 {
        unsafe { (self.bbq_sqrt)(bits) }
    }

    pub fn lower(&self, bits: u32) -> u16 {
        unsafe { (self.bbq_lower)(bits) }
    }

    /// The root of each, in one question where questions cost.
    pub fn roots(&self, block: &[u32]) -> Vec<u32> {
        self.each("bbq_sqrt", block, |x| self.sqrt(x))
    }

    /// Each lowered, likewise.
    pub fn lowered(&self, block: &[u32]) -> Vec<u32> {
        self.each("bbq_lower", block, |x| self.lower(x) as u32)
    }

    fn each(&self, name: &'static str, block: &[u32], one: impl Fn(u32) -> u32) -> Vec<u32> {
        if !self.piped {
            return block.iter().map(|x| one(*x)).collect();
        }
        let mut row = block.to_vec();
        through::each(name, &mut row);
        row
    }

    pub fn widen(&self, half: u16) -> u32 {
        unsafe { (self.bbq_widen)(half) }
    }

    pub fn sizes(&self, g: Geometry) -> Sizes {
        let Geometry { d, n, cap, mode } = g;
        unsafe {
            Sizes {
                bases: (self.bbq_bases_len)(d, n, cap, mode),
                faces: (self.bbq_faces_len)(d, n, cap, mode),
                marks: (self.bbq_marks_len)(d, n, cap, mode),
                vectors: (self.bbq_vectors_len)(d, n, cap, mode),
                work: (self.bbq_work_len)(d, n, cap, mode),
                layers: (self.bbq_layers_len)(d, n, cap, mode),
                set: (self.bbq_set_len)(d, n, cap, mode),
            }
        }
    }

    pub fn dot_product(&self, a: &[f32], b: &[f32], out: &mut [f32]) -> u32 {
        unsafe { (self.bbq_dot_product)(a.as_ptr(), a.len(), b.as_ptr(), b.len(), out.as_mut_ptr(), out.len()) }
    }

    pub fn distance(&self, a: &[f32], b: &[f32], out: &mut [f32]) -> u32 {
        unsafe { (self.bbq_distance)(a.as_ptr(), a.len(), b.as_ptr(), b.len(), out.as_mut_ptr(), out.len()) }
    }

    pub fn normalize(&self, v: &mut [f32]) -> u32 {
        unsafe { (self.bbq_normalize)(v.as_mut_ptr(), v.len()) }
    }

    pub fn orthonormalize(&self, basis: &[f32], out: &mut [f32], d: usize, rounds: usize) -> u32 {
        unsafe { (self.bbq_orthonormalize)(basis.as_ptr(), basis.len(), out.as_mut_ptr(), out.len(), d, rounds) }
    }

    pub fn find_face_idx(&self, projection: &[f32], out: &mut [i32]) -> u32 {
        unsafe { (self.bbq_find_face_idx)(projection.as_ptr(), projection.len(), out.as_mut_ptr(), out.len()) }
    }

    pub fn spill_faces(&self, projection: &mut [f32], spill: usize, faces: &mut [i32]) -> u32 {
        unsafe { (self.bbq_spill_faces)(projection.as_mut_ptr(), projection.len(), spill, faces.as_mut_ptr(), faces.len()) }
    }

    pub fn counting_or(&self, layers: &mut [u64], set: &mut [u64], cap: usize, n: usize, dropped: &mut [u32]) -> u32 {
        unsafe { (self.bbq_counting_or)(layers.as_mut_ptr(), layers.len(), set.as_mut_ptr(), set.len(), cap, n, dropped.as_mut_ptr(), dropped.len()) }
    }

    pub fn top_k(&self, layers: &[u64], cap: usize, n: usize, search_k: usize, layer: &mut [usize]) -> u32 {
        unsafe { (self.bbq_top_k)(layers.as_ptr(), layers.len(), cap, n, search_k, layer.as_mut_ptr(), layer.len()) }
    }

    pub fn feed(&self, k: usize, ids: &[u32], scores: &[f32], out: &mut Out) -> u32 {
        unsafe {
            (self.bbq_feed)(
                k,
                ids.as_ptr(),
                ids.len(),
                scores.as_ptr(),
                scores.len(),
                out.ids.as_mut_ptr(),
                out.ids.len(),
                out.scores.as_mut_ptr(),
                out.scores.len(),
                out.told.as_mut_ptr(),
                out.told.len(),
            )
        }
    }

    pub fn new_index(&self, index: &mut Lent, g: Geometry) -> u32 {
        let (f, m, v) = (&mut index.faces, &mut index.marks, &mut index.vectors);
        unsafe { (self.bbq_new)(f.as_mut_ptr(), f.len(), m.as_mut_ptr(), m.len(), v.as_mut_ptr(), v.len(), g.d, g.n, g.cap, g.mode) }
    }

    pub fn add_vector(&self, bases: &[f32], index: &mut Lent, work: &mut [f32], vector: &[f32], g: Geometry, id: usize) -> u32 {
        unsafe {
            (self.bbq_add_vector)(
                bases.as_ptr(),
                bases.len(),
                index.faces.as_mut_ptr(),
                index.faces.len(),
                index.marks.as_mut_ptr(),
                index.marks.len(),
                index.vectors.as_mut_ptr(),
                index.vectors.len(),
                work.as_mut_ptr(),
                work.len(),
                vector.as_ptr(),
                vector.len(),
                g.d,
                g.n,
                g.cap,
                g.mode,
                id,
            )
        }
    }

    #[allow(clippy::too_many_arguments)]
    pub fn find_nearest(
        &self, bases: &[f32], index: &Lent, work: &mut Work, target: &[f32], out: &mut Out, g: Geometry, k: usize, search_k: usize, spill: usize,
    ) -> u32 {
        unsafe {
            (self.bbq_find_nearest)(
                bases.as_ptr(),
                bases.len(),
                index.faces.as_ptr(),
                index.faces.len(),
                index.marks.as_ptr(),
                index.marks.len(),
                index.vectors.as_ptr(),
                index.vectors.len(),
                work.floats.as_mut_ptr(),
                work.floats.len(),
                work.layers.as_mut_ptr(),
                work.layers.len(),
                work.set.as_mut_ptr(),
                work.set.len(),
                target.as_ptr(),
                target.len(),
                out.ids.as_mut_ptr(),
                out.ids.len(),
                out.scores.as_mut_ptr(),
                out.scores.len(),
                out.told.as_mut_ptr(),
                out.told.len(),
                g.d,
                g.n,
                g.cap,
                g.mode,
                k,
                search_k,
                spill,
            )
        }
    }

    pub fn full_table_scan(&self, index: &Lent, target: &[f32], out: &mut Out, g: Geometry, k: usize) -> u32 {
        unsafe {
            (self.bbq_full_table_scan)(
                index.marks.as_ptr(),
                index.marks.len(),
                index.vectors.as_ptr(),
                index.vectors.len(),
                target.as_ptr(),
                target.len(),
                out.ids.as_mut_ptr(),
                out.ids.len(),
                out.scores.as_mut_ptr(),
                out.scores.len(),
                out.told.as_mut_ptr(),
                out.told.len(),
                g.d,
                g.n,
                g.cap,
                g.mode,
                k,
            )
        }
    }

    pub fn merge(&self, index: &mut Lent, other: &Lent, g: Geometry) -> u32 {
        unsafe {
            (self.bbq_merge)(
                index.faces.as_mut_ptr(),
                index.faces.len(),
                index.marks.as_mut_ptr(),
                index.marks.len(),
                index.vectors.as_mut_ptr(),
                index.vectors.len(),
                other.faces.as_ptr(),
                other.faces.len(),
                other.marks.as_ptr(),
                other.marks.len(),
                other.vectors.as_ptr(),
                other.vectors.len(),
                g.d,
                g.n,
                g.cap,
                g.mode,
            )
        }
    }
}
