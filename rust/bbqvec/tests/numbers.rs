//! Roots, bf16, normalising and orthonormalising by themselves.
use bbqvec::{lower, normalize, orthonormalize, sqrt, widen, Refusal};

const UNIT: [f32; 4] = [1.0, 0.0, 0.0, 1.0];

#[test]
fn roots_and_halves() {
    for bits in [0u32, 1, 0x0080_0000, 0x3F80_0000, 0x4080_0000, 0x7F7F_FFFF, 0x7F80_0000, 0x8000_0000] {
        let x = f32::from_bits(bits);
        assert_eq!(sqrt(x).to_bits(), x.sqrt().to_bits());
    }
    assert!(sqrt(-1.0).is_nan() && sqrt(f32::NAN).is_nan());
    assert_eq!([lower(0x3F80_8000), lower(0x3F81_8000), lower(0x7F7F_FFFF), lower(0x7F80_0001)], [0x3F80, 0x3F82, 0x7F80, 0x7FC0]);
    assert_eq!(widen(0x3F82), 0x3F82_0000);
}

#[test]
fn normalising() {
    let mut v = [3.0, 4.0];
    normalize(&mut v).unwrap();
    assert_eq!(v, [0.6, 0.8]);
    for (mut refused, why) in [([0.0, -0.0], Refusal::NoNorm), ([f32::MAX, 1.0], Refusal::NoNorm), ([f32::INFINITY, 1.0], Refusal::NotFinite)] {
        let before = refused;
        assert_eq!(normalize(&mut refused), Err(why));
        assert_eq!(refused.map(f32::to_bits), before.map(f32::to_bits));
    }
    assert_eq!(normalize(&mut []), Err(Refusal::NoNorm));
}

#[test]
fn orthonormalising() {
    assert_eq!(orthonormalize(&UNIT, 2, 9), Err(Refusal::Geometry));
    assert_eq!(orthonormalize(&[], 0, 1), Err(Refusal::Geometry));
    assert_eq!(orthonormalize(&UNIT, 3, 1), Err(Refusal::Length));
    assert_eq!(orthonormalize(&[f32::NAN; 4], 2, 0), Err(Refusal::NotFinite));
    assert_eq!(orthonormalize(&[1.0, 0.0, 1.0, 0.0], 2, 1), Err(Refusal::NoNorm));
    assert_eq!(orthonormalize(&[0.0, 2.0, 3.0, 0.0], 2, 1), Ok(vec![0.0, 1.0, 1.0, 0.0]));
    assert_eq!(orthonormalize(&[0.0, 2.0, 3.0, 0.0], 2, 0), Ok(vec![0.0, 2.0, 3.0, 0.0]));
}
