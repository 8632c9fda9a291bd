//! The generator of the recorded cases: Lehmer's, s := 48271 s mod 2147483647, with s from 1 to 2147483646.
//! No step leaves 64 bits, so any language runs it without wrapping.

pub const MULTIPLIER: u64 = 48271;
pub const MODULUS: u64 = 2147483647;

#[derive(Clone)]
pub struct Draw(u64);

impl Draw {
    pub fn new(seed: u64) -> Self {
        assert!((1..MODULUS).contains(&seed));
        Self(seed)
    }

    pub fn next(&mut self) -> u64 {
        self.0 = self.0 * MULTIPLIER % MODULUS;
        self.0
    }

    /// A number below n.
    pub fn below(&mut self, n: u64) -> u64 {
        self.next() % n
    }

    /// 32 bits out of three draws.
    pub fn bits(&mut self) -> u32 {
        let a = self.next() >> 8 & 0x7ff;
        let b = self.next() >> 8 & 0x7ff;
        let c = self.next() >> 8 & 0x3ff;
        (a << 21 | b << 10 | c) as u32
    }

    /// A whole number from -grain to grain, times the scale (a power of two: the product is exact).
    pub fn component(&mut self, grain: u64, scale: f32) -> f32 {
        let x = self.next() % (2 * grain + 1);
        (x as f32 - grain as f32) * scale
    }

    pub fn vector(&mut self, d: usize, grain: u64, scale: f32) -> Vec<f32> {
        (0..d).map(|_| self.component(grain, scale)).collect()
    }
}

/// One number for a long row of bytes, halves or words: h := (48271 h + x) mod 2147483647 from 1 on, x below 2^32.
pub fn digest(xs: impl Iterator<Item = u32>) -> u32 {
    xs.fold(1, |h: u64, x| (h * MULTIPLIER + x as u64) % MODULUS) as u32
}

/// A 64-bit word goes in as its low half, then its high half.
pub fn digest_words(ws: &[u64]) -> u32 {
    digest(ws.iter().flat_map(|w| [*w as u32, (*w >> 32) as u32]))
}
