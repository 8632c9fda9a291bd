//! Vectors, bases and bits by themselves.
use crate::{calls, Refusal};

/// Divides each component by the norm.
///
/// # Errors
///
/// Refuses [`Refusal::NotFinite`], then [`Refusal::NoNorm`], and leaves the vector as it was then.
///
/// ```
/// let mut target = [3.0, 4.0];
/// bbqvec::normalize(&mut target)?;
/// assert_eq!(target, [0.6, 0.8]);
/// # Ok::<(), bbqvec::Refusal>(())
/// ```
pub fn normalize(vector: &mut [f32]) -> Result<(), Refusal> {
    calls::normalize(vector)
}

/// The basis that orthonormalising makes, in this many rounds (0 to 8), of `d` vectors of `d` components, which stand one after the other.
///
/// # Errors
///
/// Refuses [`Refusal::Geometry`] for `d` outside 1 to 1,024 or too many rounds, [`Refusal::Length`], [`Refusal::NotFinite`], and
/// [`Refusal::NoNorm`] where a vector has no direction left, as one of two that are the same.
///
/// ```
/// let basis = bbqvec::orthonormalize(&[0.0, 2.0, 3.0, 0.0], 2, 1)?;
/// assert_eq!(basis, [0.0, 1.0, 1.0, 0.0]);
/// # Ok::<(), bbqvec::Refusal>(())
/// ```
pub fn orthonormalize(basis: &[f32], d: usize, rounds: usize) -> Result<Vec<f32>, Refusal> {
    let mut out = vec![0.0; basis.len()];
    calls::orthonormalize(basis, &mut out, d, rounds)?;
    Ok(out)
}

/// The root of a float, to nearest, by the proved root of its bits. A NaN and a negative other than -0.0 give NaN.
///
/// ```
/// assert_eq!(bbqvec::sqrt(2.25), 1.5);
/// ```
pub fn sqrt(x: f32) -> f32 {
    f32::from_bits(calls::sqrt(x.to_bits()))
}

/// The bits of the bf16 of the binary32 with these bits: the nearest, of two as near the even one. Of a NaN it is the upper half and bit 0040.
///
/// ```
/// assert_eq!(bbqvec::lower(0x3F81_8000), 0x3F82);
/// ```
pub fn lower(bits: u32) -> u16 {
    calls::lower(bits)
}

/// The bits of the binary32 of the bf16 with these bits: 16 zeros are appended.
///
/// ```
/// assert_eq!(bbqvec::widen(0x3F82), 0x3F82_0000);
/// ```
pub fn widen(half: u16) -> u32 {
    calls::widen(half)
}
