//! Holds the published Rust against the paper's rules where the rules can be asked exhaustively, or where a tie decides.
//!
//!   selfcheck            all
//!   selfcheck widen lower sqrt faces layers      some
//!
//! Prints for each the number of comparisons and of differences, with the first.

use bbqvec::doors::Quantization;
use bbqvec::BF16Quantization;
use oracle::calls;
use oracle::draw::Draw;

struct Tally {
    compared: u64,
    differ: u64,
    first: Option<String>,
}

impl Tally {
    fn new() -> Self {
        Self { compared: 0, differ: 0, first: None }
    }

    #[inline(always)]
    fn note(&mut self, same: bool, tell: impl FnOnce() -> String) {
        self.compared += 1;
        if !same {
            self.differ += 1;
            if self.first.is_none() {
                self.first = Some(tell());
            }
        }
    }

    fn print(self, name: &str) {
        println!("{name}: {} compared, {} differ{}", self.compared, self.differ, self.first.map(|f| format!(", first: {f}")).unwrap_or_default());
    }
}

fn main() {
    let asked: Vec<String> = std::env::args().skip(1).collect();
    let wanted = |name: &str| asked.is_empty() || asked.iter().any(|a| a == name);
    if wanted("widen") {
        widen();
    }
    if wanted("faces") {
        faces();
    }
    if wanted("layers") {
        layers();
    }
    if wanted("lower") {
        lower();
    }
    if wanted("sqrt") {
        sqrt();
    }
}

/// The paper's widening: sixteen zeros are appended.
fn widen() {
    let mut t = Tally::new();
    let mut signalling = 0;
    for h in 0..=u16::MAX {
        let said = calls::widen(h);
        let quiet = h & 0x7f80 != 0x7f80 || h & 0x7f == 0 || h & 0x40 != 0;
        signalling += !quiet as u32;
        t.note(said == (h as u32) << 16, || format!("{h:04x} gives {said:08x}"));
    }
    t.print("widen, all 2^16 patterns");
    println!("  patterns of signalling NaNs: {signalling}");
}

/// The paper's lowering, on bits.
fn lowered(x: u32) -> u16 {
    let up = (x >> 16) as u16;
    if x & 0x7fffffff > 0x7f800000 {
        return up | 0x40;
    }
    let low = x & 0xffff;
    up + (low > 0x8000 || low == 0x8000 && up & 1 == 1) as u16
}

fn lower() {
    let mut t = Tally::new();
    for block in 0..=0xffffu32 {
        let xs: Vec<f32> = (0..=0xffffu32).map(|low| f32::from_bits(block << 16 | low)).collect();
        let said = BF16Quantization::lower(xs).unwrap();
        for (low, h) in said.iter().enumerate() {
            let x = block << 16 | low as u32;
            t.note(h.to_bits() == lowered(x), || format!("{x:08x} gives {:04x}", h.to_bits()));
        }
    }
    t.print("lower, all 2^32 patterns");
}

/// Is r the nearest root of x? By whole squares: x = m·2^e with e even, r = q·2^f; (2q-1)² < 4·x/2^(2f) < (2q+1)². Equality can't be: the sides are odd.
fn nearest_root(x: u32, r: u32) -> bool {
    let parts = |b: u32| -> (u64, i32) {
        let (e, s) = (b >> 23 & 0xff, (b & 0x7fffff) as u64);
        if e == 0 {
            (s, -149)
        } else {
            (s | 0x800000, e as i32 - 150)
        }
    };
    let (m, e) = parts(x);
    let (q, f) = parts(r);
    if r >> 31 != 0 || q < 0x800000 {
        return false;
    }
    // 4·m·2^e / 2^(2f) = m·2^(e - 2f + 2)
    let shift = e - 2 * f + 2;
    if !(0..=60).contains(&shift) {
        return false;
    }
    let square = (m as u128) << shift;
    let (below, above) = (2 * q as u128 - 1, 2 * q as u128 + 1);
    below * below < square && square < above * above
}

fn sqrt() {
    let mut t = Tally::new();
    let mut nans = Tally::new();
    for x in 0..=u32::MAX {
        let said = calls::sqrt(f32::from_bits(x));
        let magnitude = x & 0x7fffffff;
        if magnitude > 0x7f800000 || x >> 31 == 1 && magnitude != 0 {
            t.note(said.is_nan(), || format!("{x:08x} gives {:08x}", said.to_bits()));
            nans.note(said.to_bits() == 0x7fc00000, || format!("{x:08x} gives {:08x}", said.to_bits()));
        } else if magnitude == 0 || magnitude == 0x7f800000 {
            t.note(said.to_bits() == x, || format!("{x:08x} gives {:08x}", said.to_bits()));
        } else {
            t.note(nearest_root(x, said.to_bits()), || format!("{x:08x} gives {:08x}", said.to_bits()));
        }
    }
    t.print("sqrt, all 2^32 patterns, NaNs as one");
    nans.print("  of these the NaNs' bits against 7fc00000");
}

/// The paper's face: greatest absolute value; of equal ones a positive one; then the first.
fn face_by_rule(p: &[f32]) -> i32 {
    let mut best = 0;
    for i in 1..p.len() {
        let (a, b) = (p[i].abs(), p[best].abs());
        if a > b || a == b && p[i] > 0.0 && !(p[best] > 0.0) {
            best = i;
        }
    }
    if p[best] > 0.0 {
        best as i32 + 1
    } else {
        -(best as i32 + 1)
    }
}

fn faces() {
    let mut t = Tally::new();
    let tell = |p: &[f32], said: i32| format!("{p:?} gives {said}, by the rule {}", face_by_rule(p));
    // Every projection of up to 8 entries out of five numbers with ties.
    let alphabet = [0.0, -0.0, 1.0, -1.0, 2.0];
    for d in 1..=8u32 {
        for code in 0..5u32.pow(d) {
            let p: Vec<f32> = (0..d).map(|i| alphabet[(code / 5u32.pow(i) % 5) as usize]).collect();
            let said = calls::face(&p);
            t.note(said == face_by_rule(&p), || tell(&p, said));
        }
    }
    let alphabet = [0.0, -0.0, 1.0, -1.0];
    for d in 9..=10u32 {
        for code in 0..4u32.pow(d) {
            let p: Vec<f32> = (0..d).map(|i| alphabet[(code >> (2 * i) & 3) as usize]).collect();
            let said = calls::face(&p);
            t.note(said == face_by_rule(&p), || tell(&p, said));
        }
    }
    t.print("faces, every short projection with ties");
    // Long ones, up to 1,024 entries: argminmax has loops of its own for these. One, two or three peaks of either sign in a field of smaller numbers.
    let mut t = Tally::new();
    let mut draw = Draw::new(31);
    for d in 1..=1024usize {
        for round in 0..60 {
            let mut p: Vec<f32> = match round % 3 {
                0 => vec![0.0; d],
                1 => draw.vector(d, 1, 1.0),
                _ => draw.vector(d, 50, 0.5),
            };
            for _ in 0..draw.below(4) {
                let at = draw.below(d as u64) as usize;
                p[at] = if draw.below(2) == 0 { 30.0 } else { -30.0 };
            }
            let said = calls::face(&p);
            t.note(said == face_by_rule(&p), || tell(&p, said));
        }
    }
    t.print("faces, long projections with ties");
}

/// The paper's layers: layer i holds the ids in more than i sets.
fn layers() {
    let mut t = Tally::new();
    let mut draw = Draw::new(32);
    for _ in 0..20000 {
        let n = 1 + draw.below(6) as usize;
        let capacity = 64 * (1 + draw.below(3));
        let sets: Vec<Vec<u64>> = (0..draw.below(10))
            .map(|_| {
                let one_in = [1, 2, 5, 30, 200][draw.below(5) as usize];
                let end = 1 + draw.below(capacity);
                (0..end).filter(|_| draw.below(one_in) == 0).collect()
            })
            .collect();
        let said = calls::layers(n, &sets);
        let count = |id: u64| sets.iter().filter(|s| s.contains(&id)).count();
        let ours: Vec<Vec<u64>> = (0..n).map(|i| (0..capacity).filter(|id| count(*id) > i).collect()).collect();
        t.note(said.layers == ours, || format!("{n} {sets:?}"));
        for search_k in [0, 1, 2, 5, 20, 64, draw.below(capacity) as usize] {
            let ours = (0..n).rev().find(|i| said.layers[*i].len() >= search_k);
            let told = calls::top_k(n, &sets, search_k);
            t.note(told == ours, || format!("top_k {search_k} {n} {sets:?}"));
        }
    }
    t.print("layers and top_k, drawn");
}
