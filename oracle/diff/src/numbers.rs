//! bf16 and square roots, over every pattern or every so many.

use crate::port::Port;
use crate::tally::Tally;
use bbqvec::doors::Quantization;
use bbqvec::BF16Quantization;
use oracle::{calls, text};

/// All 2^32 patterns, or of every so manieth upper half seven: the lower halves where rounding changes its mind, and one more.
#[derive(Clone, Copy)]
pub enum Patterns {
    All,
    Part(usize),
}

impl Patterns {
    fn title(&self, name: &str) -> String {
        match self {
            Patterns::All => format!("{name}, all 2^32 patterns"),
            Patterns::Part(_) => format!("{name}, a part of the 2^32 patterns"),
        }
    }

    /// In blocks.
    fn blocks(self) -> Box<dyn Iterator<Item = Vec<u32>>> {
        match self {
            Patterns::All => Box::new((0..=0xffffu32).map(|upper| (0..=0xffffu32).map(|lower| upper << 16 | lower).collect())),
            Patterns::Part(step) => Box::new((0..=0xffffu32).step_by(step).map(|upper| {
                let some = upper.wrapping_mul(40503) >> 3 & 0xffff;
                [0, 1, 0x7fff, 0x8000, 0x8001, 0xffff, some].iter().map(|lower| upper << 16 | lower).collect()
            })),
        }
    }
}

/// Against the published quantizer, in blocks.
pub fn lower(port: &Port, patterns: Patterns) -> Vec<Tally> {
    let mut t = Tally::new(patterns.title("lower"));
    for block in patterns.blocks() {
        let theirs = BF16Quantization::lower(block.iter().map(|x| f32::from_bits(*x)).collect()).unwrap();
        for ((x, theirs), ours) in block.iter().zip(&theirs).zip(port.lowered(&block)) {
            let theirs = theirs.to_bits() as u32;
            t.note(ours == theirs, || format!("lower {x:08x}: port {ours:04x}, Rust {theirs:04x}"));
        }
    }
    vec![t]
}

/// The Rust makes signalling NaNs quiet. These are counted apart, and held against the paper's rule.
pub fn widen(port: &Port) -> Vec<Tally> {
    let mut t = Tally::new("widen, all 2^16 patterns");
    let mut signalling = 0;
    for half in 0..=u16::MAX {
        let (ours, mut theirs) = (port.widen(half), calls::widen(half));
        if half & 0x7f80 == 0x7f80 && half & 0x7f != 0 && half & 0x40 == 0 {
            signalling += 1;
            theirs = (half as u32) << 16;
        }
        t.note(ours == theirs, || format!("widen {half:04x}: port {ours:08x}, Rust {theirs:08x}"));
    }
    t.apart = Some(("signalling NaNs held against the rule, since the Rust makes them quiet", signalling));
    vec![t]
}

/// A NaN of the Rust's is the port's 7fc00000.
pub fn sqrt(port: &Port, patterns: Patterns) -> Vec<Tally> {
    let mut t = Tally::new(patterns.title("sqrt"));
    let mut nans = 0;
    for block in patterns.blocks() {
        for (x, ours) in block.iter().zip(port.roots(&block)) {
            let theirs = text::bits(calls::sqrt(f32::from_bits(*x)));
            nans += (theirs == 0x7fc00000) as u64;
            t.note(ours == theirs, || format!("sqrt {x:08x}: port {ours:08x}, Rust {theirs:08x}"));
        }
    }
    t.apart = Some(("of them NaN, as 7fc00000", nans));
    vec![t]
}
