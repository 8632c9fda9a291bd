//! Drawn inputs. With the same seed the same ones come.

use oracle::draw::{Draw, MODULUS};

/// How much is asked, and from where the drawing starts.
#[derive(Clone, Copy)]
pub struct Ask {
    pub seed: u64,
    /// How many times the usual amount.
    pub times: u64,
    /// A small part of everything, for the planted faults.
    pub short: bool,
}

impl Ask {
    /// A generator for one part of one word. The sum is taken in 128 bits, so that any seed will do.
    pub fn draw(&self, word: u64, part: u64) -> Draw {
        let [seed, word, part] = [self.seed, word, part].map(u128::from);
        let start = (seed * 7_368_787 + word * 15_485_863 + part * 32_452_843) % (MODULUS - 1) as u128;
        let mut draw = Draw::new(1 + start as u64);
        for _ in 0..4 {
            draw.next();
        }
        draw
    }

    pub fn amount(&self, usual: u64) -> u64 {
        if self.short {
            (usual / 20).max(1)
        } else {
            usual * self.times
        }
    }
}

pub fn pick<T: Copy>(draw: &mut Draw, from: &[T]) -> T {
    from[draw.below(from.len() as u64) as usize]
}

/// A float of any sign with an exponent field in the range.
pub fn float(draw: &mut Draw, low: u32, high: u32) -> f32 {
    let e = low + draw.below((high - low + 1) as u64) as u32;
    f32::from_bits(draw.bits() & 0x807fffff | e << 23)
}

/// Kinds of vectors; the last two hold what isn't finite.
pub const STYLES: u64 = 11;
pub const FINITE: u64 = 9;

pub fn vector(draw: &mut Draw, d: usize, style: u64) -> Vec<f32> {
    let one = |draw: &mut Draw| match style {
        // Few numbers, many ties.
        0 => draw.component(2, 1.0),
        1 => pick(draw, &[0.0, -0.0, 1.0, -1.0]),
        2 => draw.component(128, 1.0 / 64.0),
        3 => float(draw, 120, 134),
        // Squares that are subnormal, or round to zero.
        4 => float(draw, 50, 66),
        // Subnormal numbers.
        5 => float(draw, 0, 1),
        // Squares that are infinite now and then.
        6 => float(draw, 180, 192),
        7 => float(draw, 0, 254),
        8 => pick(draw, &[0.0, -0.0, 1.0, 3.0, -2.0, f32::from_bits(1), f32::from_bits(0x80000001), f32::MIN_POSITIVE, 1e-20, 1e19]),
        9 => float(draw, 0, 255),
        _ => pick(draw, &[0.0, 1.0, -1.0, f32::INFINITY, f32::NEG_INFINITY, f32::MAX]),
    };
    (0..d).map(|_| one(draw)).collect()
}

/// Mostly ordinary, now and then anything.
pub fn usual_style(draw: &mut Draw) -> u64 {
    match draw.below(40) {
        0 => 9,
        1 => 10,
        2 | 3 => 7,
        4 => 6,
        5 => 5,
        6 | 7 => 4,
        8 | 9 => 8,
        n => n % 4,
    }
}
