// Stands in for spaces/mod.rs: the module lines, and the patch of the paper as a feature.

#[cfg(target_arch = "x86_64")]
mod simple_avx;
#[cfg(all(target_arch = "aarch64", target_feature = "neon"))]
mod simple_neon;
#[cfg(any(target_arch = "x86", target_arch = "x86_64"))]
mod simple_sse;

// Without the feature: as published, SIMD from 16 dimensions on.
#[cfg(not(feature = "plain-dot"))]
pub mod simple;

// With it: below 16 dimensions the published dot_product untouched, from there dot_product_non_optimized.
// simple.rs itself stays as published and is only reached by another name.
#[cfg(feature = "plain-dot")]
#[path = "simple.rs"]
mod published;

#[cfg(feature = "plain-dot")]
pub mod simple {
    use super::published;
    use crate::unaligned_f32::UnalignedF32Slice;

    pub fn dot_product(u: &UnalignedF32Slice, v: &UnalignedF32Slice) -> f32 {
        if u.len() < 16 {
            published::dot_product(u, v)
        } else {
            published::dot_product_non_optimized(u, v)
        }
    }
}
