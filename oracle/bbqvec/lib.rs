// The published lib.rs is this crate's root; the module `doors` is the oracle's.
#![allow(dead_code, unused_imports)]

include!(concat!(env!("OUT_DIR"), "/src/lib.rs"));

/// Doors to what the published files keep to themselves. No file is edited: a file whose private parts are wanted is compiled
/// a second time, text and all, inside a module of the oracle's, where a function beside it may reach them.
pub mod doors {
    pub use crate::counting_bitmap::CountingBitmap;
    pub use crate::quantization::Quantization;

    /// The dot product as the published vector.rs calls it (with the feature, patched from 16 dimensions on).
    pub fn dot(a: &crate::Vector, b: &crate::Vector) -> f32 {
        crate::vector::dot_product(a, b)
    }

    /// vector_store.rs once more: its private functions and the store's private fields.
    pub mod store {
        include!(concat!(env!("OUT_DIR"), "/src/vector_store.rs"));

        pub fn face(projection: &Vector) -> i32 {
            find_face_idx(projection)
        }

        pub fn ortho(basis: Basis, rounds: usize) -> Basis {
            orthonormalize(basis, rounds)
        }

        impl<E: VectorBackend, B: Bitmap> VectorStore<E, B> {
            pub fn face_set(&self, basis: usize, face: i32) -> Vec<ID> {
                self.bitmaps[basis].get(&face).map(|b| b.iter_elems().collect()).unwrap_or_default()
            }

            pub fn give_face_set(&mut self, basis: usize, face: i32, ids: &[ID]) {
                let mut set = B::new();
                for id in ids {
                    set.add(*id);
                }
                self.bitmaps[basis].insert(face, set);
            }

            pub fn faces_known(&self, basis: usize) -> Vec<i32> {
                let mut known: Vec<i32> = self.bitmaps[basis].keys().copied().collect();
                known.sort();
                known
            }

            pub fn backend(&self) -> &E {
                &self.backend
            }
        }
    }

    /// counting_bitmap.rs once more: the layers.
    pub mod counting {
        include!(concat!(env!("OUT_DIR"), "/src/counting_bitmap.rs"));

        impl<B: Bitmap> CountingBitmap<B> {
            pub fn layers(&self) -> &[B] {
                &self.bitmaps
            }
        }
    }

    /// backend_memory.rs once more: the stored vectors.
    pub mod memory {
        include!(concat!(env!("OUT_DIR"), "/src/backend_memory.rs"));

        impl<Q: Quantization> QuantizedMemoryBackend<Q> {
            pub fn stored(&self, id: ID) -> Option<&Q::Lower> {
                self.vecs.get(id as usize).and_then(|v| v.as_ref())
            }
        }
    }
}
