//! Writes the recorded cases into the folder named. The same files come out each time: every drawn number is the Lehmer generator's.

use oracle::calls::{self, List};
use oracle::draw::{digest, digest_words, Draw};
use oracle::index;
use oracle::text::{hex, hexes, line, list, words};
use std::collections::BTreeSet;
use std::fs;
use std::path::Path;

fn main() {
    let folder = std::env::args().nth(1).expect("record FOLDER");
    let folder = Path::new(&folder);
    for (name, lines) in [
        ("sqrt.txt", roots()),
        ("bf16.txt", lowered()),
        ("widen.txt", widened()),
        ("bytes.txt", bytes()),
        ("vectors.txt", vectors()),
        ("orthonormalize.txt", orthonormalized()),
        ("faces.txt", faces()),
        ("layers.txt", layers()),
        ("results.txt", results()),
        ("index.txt", indexes()),
    ] {
        fs::write(folder.join(name), lines.join("\n") + "\n").unwrap();
        println!("{name} {} lines", lines.len());
    }
}

// ---------------------------------------------------------------- roots

fn roots() -> Vec<String> {
    let mut xs: Vec<u32> = vec![
        0x00000000, 0x80000000, 0x00000001, 0x00000002, 0x00000003, 0x00000004, 0x00000009, 0x00000010, 0x000003ff, 0x00000400, 0x00000401,
        0x003fffff, 0x00400000, 0x00400001, 0x007ffffe, 0x007fffff, 0x00800000, 0x00800001, 0x00ffffff, 0x01000000, 0x01000001, 0x01800000,
        0x3f7ffffe, 0x3f7fffff, 0x3f800000, 0x3f800001, 0x3f800002, 0x3f800003, 0x3fffffff, 0x3ffffffe, 0x40000000, 0x40000001, 0x407fffff,
        0x40800000, 0x40800001, 0x41100000, 0x41800000, 0x42c80000, 0x3e800000, 0x3e7fffff, 0x4b7fffff, 0x4b800000, 0x7effffff, 0x7f000000,
        0x7f7ffffe, 0x7f7fffff, 0x7f800000, 0xff800000, 0x7f800001, 0x7fbfffff, 0x7fc00000, 0x7fc00001, 0x7fffffff, 0xff800001, 0xffbfffff,
        0xffc00000, 0xffffffff, 0x80000001, 0x807fffff, 0x80800000, 0xbf800000, 0xc0800000, 0xff7fffff,
    ];
    let mut draw = Draw::new(11);
    // Squares of 12-bit numbers, at several exponents: exact roots, and their neighbours.
    for _ in 0..12 {
        let r = 2049 + 2 * draw.below(1000);
        let e = 2 * draw.below(60);
        let x = (r as f32) * (r as f32) * 2f32.powi(e as i32 - 60);
        xs.extend([x.to_bits() - 1, x.to_bits(), x.to_bits() + 1]);
    }
    // As close to halfway between two roots as can be: an odd 25-bit number whose square is almost a 24-bit number times a power of two.
    // Halfway itself is never met, since an odd number's square is odd.
    let mut close = 0;
    for r in ((1u64 << 24) + 1..1 << 25).step_by(2) {
        let square = r * r;
        let cut = 64 - square.leading_zeros() as u64 - 24;
        let over = square % (1 << cut);
        let under = (1 << cut) - over;
        if over > 41 && under > 39 {
            continue;
        }
        close += 1;
        // An even exponent for a 49-bit square, an odd one for a 50-bit square: the root's significand is then that of r.
        let exponent = 127 - 40 + draw.below(40) * 2 + (cut - 25);
        let significand = (square >> cut) + (under <= 39) as u64;
        xs.push((((exponent as u32) << 23) - 0x800000) + significand as u32);
    }
    assert!((10..40).contains(&close), "{close}");
    for _ in 0..6 {
        xs.push(draw.bits() & 0x007fffff);
    }
    for _ in 0..16 {
        xs.push(draw.bits() & 0x7fffffff);
    }
    for _ in 0..4 {
        xs.push(draw.bits() | 0x80000000);
    }
    xs.iter().map(|x| format!("{x:08x} {}", hex(calls::sqrt(f32::from_bits(*x))))).collect()
}

// ---------------------------------------------------------------- bf16

fn lowered() -> Vec<String> {
    let mut xs: Vec<u32> = Vec::new();
    for sign in [0, 0x80000000u32] {
        for x in [
            0x00000000, 0x00000001, 0x00007fff, 0x00008000, 0x00008001, 0x0000ffff, 0x00010000, 0x00017fff, 0x00018000, 0x00018001, 0x007fffff,
            0x007f8000, 0x007f7fff, 0x00800000, 0x3f7fffff, 0x3f800000, 0x3f807fff, 0x3f808000, 0x3f808001, 0x3f80ffff, 0x3f810000, 0x3f817fff,
            0x3f818000, 0x3f818001, 0x3fff7fff, 0x3fff8000, 0x3fff8001, 0x3ffe8000, 0x7f7f0000, 0x7f7f7fff, 0x7f7f8000, 0x7f7f8001, 0x7f7fffff,
            0x7f7e8000, 0x7f7effff, 0x7f800000, 0x7f800001, 0x7f807fff, 0x7f808000, 0x7f80ffff, 0x7f810000, 0x7fbf0000, 0x7fbfffff, 0x7fc00000,
            0x7fc00001, 0x7fc10000, 0x7fff0000, 0x7fff8000, 0x7fffffff,
        ] {
            xs.push(x | sign);
        }
    }
    let mut draw = Draw::new(12);
    for _ in 0..20 {
        xs.push(draw.bits());
    }
    for _ in 0..16 {
        xs.push(draw.bits() & 0xffff0000 | 0x8000);
    }
    for _ in 0..4 {
        xs.push(draw.bits() & 0xffff0000 | 0x7fff);
    }
    for _ in 0..4 {
        xs.push(draw.bits() & 0xffff0000 | 0x8001);
    }
    for _ in 0..8 {
        xs.push(draw.bits() | 0x7f800000);
    }
    xs.iter().map(|x| format!("{x:08x} {:04x}", calls::lower(f32::from_bits(*x)))).collect()
}

fn widened() -> Vec<String> {
    let mut hs: Vec<u16> = vec![
        0x0000, 0x8000, 0x0001, 0x8001, 0x007f, 0x807f, 0x0080, 0x3f80, 0xbf80, 0x3f81, 0x4049, 0x7f7f, 0xff7f, 0x7f80, 0xff80, 0x7fc0, 0xffc0,
        0x7fc1, 0x7fff, 0xffff,
    ];
    let mut draw = Draw::new(13);
    while hs.len() < 60 {
        let h = draw.bits() as u16;
        // A signalling NaN is quieted by the Rust and kept by the port (docs/DIFFERENCES.md): not a case here.
        if !(h & 0x7f80 == 0x7f80 && h & 0x7f != 0 && h & 0x40 == 0) {
            hs.push(h);
        }
    }
    hs.iter().map(|h| format!("{h:04x} {:08x}", calls::widen(*h))).collect()
}

// ---------------------------------------------------------------- copying out and reading

fn bytes() -> Vec<String> {
    let row = |bs: &[u8]| bs.iter().map(|b| format!("{b:02x}")).collect::<Vec<_>>().join(" ");
    let mut out = Vec::new();
    let mut draw = Draw::new(19);
    for mode in [0, 1] {
        let size = if mode == 0 { 4 } else { 2 };
        for n in [0, 1, 2, 3, 5, 8, 16] {
            for beyond in [0, 1, 3, 8] {
                let v = floats(&mut draw, n, 0, 254);
                let before: Vec<u8> = (0..n * size + beyond).map(|_| draw.below(256) as u8).collect();
                let mut after = before.clone();
                calls::marshal(mode, &v, &mut after);
                out.push(line(&[format!("copy {mode} {n}"), hexes(&v), before.len().to_string(), row(&before), row(&after)]));
            }
            for _ in 0..3 {
                // No signalling NaN among the components: the Rust quiets it (docs/DIFFERENCES.md). No NaN at all, to be plain.
                let v = floats(&mut draw, n, 0, 255).iter().map(|x| if x.is_nan() { f32::INFINITY } else { *x }).collect::<Vec<_>>();
                let mut given = vec![0; n * size];
                calls::marshal(mode, &v, &mut given);
                out.push(line(&[format!("read {mode} {}", given.len()), row(&given), hexes(&calls::unmarshal(mode, &given))]));
            }
        }
    }
    out
}

// ---------------------------------------------------------------- vectors

/// A float of any sign with an exponent field in the range and a random significand.
fn float(draw: &mut Draw, low: u32, high: u32) -> f32 {
    let e = low + draw.below((high - low + 1) as u64) as u32;
    f32::from_bits(draw.bits() & 0x807fffff | e << 23)
}

fn floats(draw: &mut Draw, n: usize, low: u32, high: u32) -> Vec<f32> {
    (0..n).map(|_| float(draw, low, high)).collect()
}

fn of(bits: &[u32]) -> Vec<f32> {
    bits.iter().map(|b| f32::from_bits(*b)).collect()
}

fn vectors() -> Vec<String> {
    let mut pairs: Vec<(Vec<f32>, Vec<f32>)> = vec![(vec![], vec![])];
    let z = 0x00000000;
    let mz = 0x80000000;
    let one = 0x3f800000;
    let mone = 0xbf800000;
    let top = 0x7f7fffff;
    let inf = 0x7f800000;
    for (a, b) in [
        (vec![mz], vec![one]),
        (vec![z], vec![one]),
        (vec![z], vec![mone]),
        (vec![mz, z], vec![one, one]),
        (vec![mz, mz], vec![one, one]),
        (vec![z, mz], vec![mone, one]),
        (vec![one, one], vec![one, mone]),
        (vec![one, mone], vec![one, one]),
        (vec![1], vec![1]),
        (vec![1], vec![0x80000001]),
        (vec![0x00400000, 0x00400000], vec![one, one]),
        (vec![0x00ffffff, 0x007fffff], vec![0x3f000000, 0x3f000000]),
        (vec![0x1a000000, 0x1a000001], vec![0x1a000000, 0x1a800001]),
        (vec![top], vec![top]),
        (vec![top, top], vec![one, one]),
        (vec![top, top], vec![one, mone]),
        (vec![top, top, top], vec![one, one, mone]),
        (vec![top, top], vec![0x40000000, 0xc0000000]),
        (vec![inf], vec![one]),
        (vec![inf, inf], vec![one, mone]),
        (vec![inf], vec![z]),
        (vec![inf, one], vec![inf, one]),
        (vec![inf], vec![0xff800000]),
        (vec![0x3f800001, 0x33800000], vec![0x3f800001, one]),
        (vec![0x4b800000, one, one], vec![one, one, one]),
        (vec![one, one, 0x4b800000], vec![one, one, one]),
        (vec![0x4b800000, one, 0xcb800000], vec![one, one, one]),
        (vec![0x3f800001, 0xbf800000], vec![0x3f7fffff, one]),
        (vec![0x5f800000, 0x3f800000], vec![0x5f000000, 0x3f800000]),
        (vec![0x40400000, 0x40800000], vec![z, z]),
    ] {
        pairs.push((of(&a), of(&b)));
    }
    let mut draw = Draw::new(14);
    for n in 1..=40 {
        pairs.push((floats(&mut draw, n, 120, 134), floats(&mut draw, n, 120, 134)));
    }
    for n in [2, 3, 4, 7, 8, 15, 16, 17, 24, 32, 33, 40] {
        pairs.push((floats(&mut draw, n, 50, 200), floats(&mut draw, n, 50, 200)));
        pairs.push((draw.vector(n, 3, 0.5), draw.vector(n, 3, 0.25)));
    }
    for n in [3, 5, 9] {
        pairs.push((floats(&mut draw, n, 0, 2), floats(&mut draw, n, 125, 127)));
        pairs.push((floats(&mut draw, n, 58, 66), floats(&mut draw, n, 58, 66)));
        pairs.push((floats(&mut draw, n, 186, 191), floats(&mut draw, n, 186, 191)));
    }
    let mut out = Vec::new();
    for (a, b) in &pairs {
        out.push(line(&[format!("dot {}", a.len()), hexes(a), hexes(b), hex(calls::dot(a, b))]));
    }
    for (a, b) in &pairs {
        out.push(line(&[format!("distance {}", a.len()), hexes(a), hexes(b), hex(calls::distance(a, b))]));
    }
    let mut alone: Vec<Vec<f32>> = pairs.into_iter().flat_map(|(a, b)| [a, b]).collect();
    alone.extend([
        of(&[0x1a3504f3]),
        of(&[0x1a000000, 0x1a000000]),
        of(&[0x20000000, 1, 0x80000001]),
        of(&[0x5f7fffff]),
        of(&[0x40400000, 0xc0800000]),
    ]);
    let mut seen = BTreeSet::new();
    for v in alone.iter().filter(|v| calls::normalizes(v)) {
        let said = line(&[format!("normalize {}", v.len()), hexes(v), hexes(&calls::normalize(v))]);
        // A second vector of each length beyond 20 says nothing new.
        if (v.len() <= 20 || seen.len() % 2 == 0 || v.len() == 40) && !seen.contains(&said) {
            out.push(said.clone());
        }
        seen.insert(said);
    }
    out
}

// ---------------------------------------------------------------- orthonormalize

fn orthonormalized() -> Vec<String> {
    let mut bases: Vec<(usize, Vec<f32>)> = vec![
        (1, of(&[0x3f800000])),
        (1, of(&[0xc0400000])),
        (1, of(&[0x1a3504f3])),
        (2, of(&[0x3f800000, 0, 0, 0x3f800000])),
        (2, of(&[0x3f800000, 0, 0x80000000, 0xbf800000])),
        (2, of(&[0x40400000, 0x40800000, 0x40800000, 0xc0400000])),
        (2, of(&[0x3f800000, 0x3f800000, 0x3f800000, 0x3f800001])),
        (2, of(&[0x5f000000, 0x1f000000, 0x1f000000, 0x5f000000])),
    ];
    let mut draw = Draw::new(15);
    for d in 1..=6 {
        for _ in 0..3 {
            bases.push((d, floats(&mut draw, d * d, 122, 130)));
        }
        bases.push((d, draw.vector(d * d, 4, 0.5)));
        bases.push((d, draw.vector(d * d, 1, 1.0)));
        bases.push((d, floats(&mut draw, d * d, 100, 150)));
    }
    let mut out = Vec::new();
    for (d, b) in &bases {
        for rounds in 0..=3 {
            if (rounds > 0 || *d < 4) && calls::orthonormalizes(*d, rounds, b) {
                out.push(line(&[format!("{rounds} {d}"), hexes(b), hexes(&calls::orthonormalize(*d, rounds, b))]));
            }
        }
    }
    let b = floats(&mut draw, 256, 122, 130);
    for rounds in 1..=2 {
        assert!(calls::orthonormalizes(16, rounds, &b));
        out.push(line(&[format!("{rounds} 16"), hexes(&b), hexes(&calls::orthonormalize(16, rounds, &b))]));
    }
    out
}

// ---------------------------------------------------------------- faces

fn faces() -> Vec<String> {
    let mut ps: Vec<Vec<f32>> = [
        vec![0x3f800000u32],
        vec![0xbf800000],
        vec![0],
        vec![0x80000000],
        vec![1],
        vec![0x80000001],
        vec![0x3f800000, 0xbf800000],
        vec![0xbf800000, 0x3f800000],
        vec![0xc0400000, 0xbf800000],
        vec![0xbf800000, 0xc0400000],
        vec![0, 0x80000000],
        vec![0x80000000, 0],
        vec![0, 0, 0],
        vec![0x80000000, 0, 0x80000000],
        vec![0x40a00000, 0, 0],
        vec![0, 0x40a00000, 0x80000000],
        vec![0xc0a00000, 0, 0x40a00000],
        vec![0xc0a00000, 0xc0a00000, 0x40a00000],
        vec![0x40a00000, 0x40a00000, 0xc0a00000],
        vec![0xc0a00000, 0xc0a00000, 0x40800000],
        vec![1, 0x80000001, 0],
        vec![0x80000001, 1, 1],
        vec![0x7f7fffff, 0xff7fffff],
        vec![0xff7fffff, 0x7f7ffffe],
        vec![0x3f800000, 0x3f800001, 0xbf800001, 0xbf800002],
        vec![0x3f800001, 0xbf800002, 0x3f800002, 0xbf800002],
        vec![0x80000000, 0x80000000, 0x80000000, 0x80000000],
    ]
    .iter()
    .map(|p| of(p))
    .collect();
    let mut draw = Draw::new(16);
    for d in 1..=20 {
        ps.push(draw.vector(d, 2, 1.0));
        ps.push(draw.vector(d, 1, 1.0));
        ps.push(floats(&mut draw, d, 110, 140));
    }
    for d in [24, 31, 32, 33, 40, 64, 65] {
        ps.push(draw.vector(d, 3, 0.5));
        ps.push(draw.vector(d, 40, 0.5));
    }
    let mut out = Vec::new();
    for p in &ps {
        out.push(line(&[format!("face {}", p.len()), hexes(p), calls::face(p).to_string()]));
    }
    for p in &ps {
        let d = p.len();
        let spills: Vec<usize> = if d <= 6 { (0..=d + 1).collect() } else { vec![0, 2, d / 2, d - 1, d, d + 1] };
        for s in spills {
            if d > 10 && (s == 0 || s == 2) || d > 20 && s != d / 2 || d > 40 {
                continue;
            }
            let (faces, after) = calls::spill(p, s);
            out.push(line(&[format!("spill {s} {d}"), hexes(p), faces.len().to_string(), list(&faces), hexes(&after)]));
        }
    }
    out
}

// ---------------------------------------------------------------- layers

fn layers() -> Vec<String> {
    let mut out = Vec::new();
    let mut tell = |n: usize, w: usize, sets: &[Vec<u64>]| {
        let l = calls::layers(n, sets);
        let given: Vec<u64> = sets.iter().flat_map(|ids| calls::words_of(ids, w)).collect();
        let held: Vec<u64> = l.layers.iter().flat_map(|ids| calls::words_of(ids, w)).collect();
        out.push(line(&[format!("layers {n} {} {}", 64 * w, sets.len()), words(&given), words(&held)]));
        let mut asked: BTreeSet<usize> = BTreeSet::from([0, 1, 64 * w, 64 * w + 1]);
        for c in &l.counts {
            asked.extend([c.saturating_sub(1), *c, c + 1]);
        }
        for search_k in asked {
            let said = match calls::top_k(n, sets, search_k) {
                Some(i) => i.to_string(),
                None => "none".into(),
            };
            out.push(format!("topk {search_k} {said}"));
        }
    };
    // The paper's example, the empty cases, and one set over and over.
    tell(3, 1, &[vec![1, 2], vec![2, 3], vec![2]]);
    tell(1, 1, &[]);
    tell(3, 2, &[]);
    tell(2, 1, &[vec![], vec![5], vec![], vec![5], vec![5]]);
    tell(1, 1, &[vec![63], vec![63], vec![0]]);
    tell(2, 3, &[vec![191], vec![0], vec![64, 191], vec![191, 64], vec![127, 128]]);
    tell(5, 1, &vec![vec![0, 7, 63]; 7]);
    tell(2, 1, &vec![(0..64).collect(); 3]);
    // A long set after a short one, and the other way round: the sets of the Rust have lengths of their own.
    tell(3, 3, &[vec![3], vec![3, 190], vec![3], vec![190], vec![3, 64]]);
    tell(3, 3, &[vec![3, 190], vec![3], vec![190, 64], vec![64], vec![3]]);
    let mut draw = Draw::new(17);
    for i in 0..40 {
        let n = 1 + i % 5;
        let w = 1 + (i / 5) % 3;
        let m = draw.below(9) as usize;
        // Each set is dense, thin or of middling density, and some keep to the low ids.
        let sets: Vec<Vec<u64>> = (0..m)
            .map(|_| {
                let one_in = [2, 2, 3, 8, 40][draw.below(5) as usize];
                let end = if draw.below(4) == 0 { 64 * w as u64 / 2 } else { 64 * w as u64 };
                (0..end).filter(|_| draw.below(one_in) == 0).collect()
            })
            .collect();
        tell(n, w, &sets);
    }
    out
}

// ---------------------------------------------------------------- results

fn shown(l: &List) -> String {
    let entries: Vec<String> = l.entries.iter().map(|(id, s)| format!("{id} {}", hex(*s))).collect();
    line(&[format!("{} {}", l.checked, l.entries.len()), entries.join(" ")])
}

fn feeds_shown(feeds: &[(u64, f32)]) -> String {
    let shown: Vec<String> = feeds.iter().map(|(id, s)| format!("{id} {}", hex(*s))).collect();
    line(&[feeds.len().to_string(), shown.join(" ")])
}

fn results() -> Vec<String> {
    let mut out = Vec::new();
    let mut tell = |k: usize, feeds: &[(u64, f32)]| {
        out.push(line(&[format!("results {k}"), feeds_shown(feeds), shown(&calls::feed(k, feeds))]));
    };
    let inf = f32::INFINITY;
    tell(2, &[(7, 1.0), (3, 2.0), (5, 2.0), (9, 2.0)]);
    tell(3, &[(7, 1.5), (5, 1.0), (5, 2.0)]);
    for k in [0, 1, 2, 3, 7, 256] {
        tell(k, &[]);
        tell(k, &[(0, -inf)]);
        tell(k, &[(4294967295, inf), (0, -inf), (4294967295, inf), (1, 0.0), (2, -0.0), (3, 0.0), (1, -0.0)]);
        tell(
            k,
            &[(1, -0.0), (2, 0.0), (3, -0.0), (4, f32::from_bits(1)), (5, f32::from_bits(0x80000001)), (6, f32::MIN), (7, f32::MAX), (8, f32::MIN)],
        );
        tell(k, &[(5, 1.0), (5, 1.0), (5, 2.0), (5, 2.0), (5, 0.5), (6, 3.0), (5, 4.0), (5, 3.0)]);
        tell(k, &[(1, -inf), (2, -inf), (3, -inf), (1, inf), (2, inf), (3, inf), (1, inf)]);
    }
    let mut draw = Draw::new(18);
    let special = [inf, -inf, 0.0, -0.0, f32::MIN, f32::MAX, f32::from_bits(1), f32::from_bits(0x80000001)];
    for k in [0, 1, 2, 3, 7, 256] {
        for (i, m) in [20, 45, 90].iter().enumerate() {
            // Few scores and few ids: ties and equal ids abound.
            let few: Vec<(u64, f32)> = (0..*m).map(|_| (draw.below(9), draw.component(3, 0.5))).collect();
            tell(k, &few);
            let mixed: Vec<(u64, f32)> = (0..*m)
                .map(|_| {
                    let id = draw.below(if i == 0 { 5 } else { 40 });
                    let s = if draw.below(3) == 0 { special[draw.below(8) as usize] } else { draw.component(20, 0.25) };
                    (id, s)
                })
                .collect();
            tell(k, &mixed);
        }
    }
    // Rising, falling, and long feeds over the largest list.
    tell(7, &(0..40).map(|i| (i, i as f32)).collect::<Vec<_>>());
    tell(7, &(0..40).map(|i| (i, -(i as f32))).collect::<Vec<_>>());
    let long: Vec<(u64, f32)> = (0..700).map(|i| (i, draw.component(100, 0.125))).collect();
    tell(256, &long);
    let doubled: Vec<(u64, f32)> = (0..600).map(|_| (draw.below(300), draw.component(50, 0.125))).collect();
    tell(256, &doubled);

    // Recall: the set, then the baseline.
    let mut ask = |at: usize, ka: usize, a: &[(u64, f32)], kb: usize, b: &[(u64, f32)]| {
        let value = calls::recall(&calls::set_fed(ka, a), &calls::set_fed(kb, b), at);
        out.push(line(&[format!("recall {at} {ka}"), feeds_shown(a), kb.to_string(), feeds_shown(b), format!("{:016x}", value.to_bits())]));
    };
    let falling = |ids: &[u64]| -> Vec<(u64, f32)> { ids.iter().enumerate().map(|(i, id)| (*id, -(i as f32))).collect() };
    let twice = vec![(7, 1.5), (5, 1.0), (5, 2.0)];
    for at in [1, 2, 3, 4, 7, 4294967295] {
        ask(at, 5, &falling(&[1, 2, 3, 4, 5]), 5, &falling(&[3, 2, 9, 1, 8]));
        ask(at, 3, &twice, 3, &twice);
        ask(at, 3, &twice, 4, &falling(&[5, 7, 1]));
        ask(at, 0, &[], 4, &falling(&[5, 7, 1]));
    }
    for at in [1, 3, 10, 49, 256, 1000] {
        let a: Vec<u64> = (0..30).map(|_| draw.below(60)).collect();
        let b: Vec<u64> = (0..30).map(|_| draw.below(60)).collect();
        ask(at, 256, &falling(&a), 256, &falling(&b));
    }
    out
}

// ---------------------------------------------------------------- whole indexes

struct Plan {
    d: usize,
    n: usize,
    capacity: usize,
    mode: usize,
    rounds: usize,
    grain: u64,
    scale: f32,
    aim: f32,
    /// Additions before each batch of questions.
    batches: Vec<usize>,
    /// Questions after each batch.
    finds: usize,
    scans: usize,
    k: u64,
    seed: u64,
}

/// One run, or nothing if the port would refuse one of its additions or bases.
fn played(p: &Plan, seed: u64) -> Option<Vec<String>> {
    // The vectors come out of one stream, what is asked (and stands in the file) out of another.
    let mut draw = Draw::new(seed);
    let mut asks = Draw::new(seed + 1_000_000);
    let (d, n) = (p.d, p.n);
    let mut entries = Vec::new();
    for _ in 0..n {
        let basis = draw.vector(d * d, p.grain, 1.0 / 64.0);
        if !calls::orthonormalizes(d, p.rounds, &basis) {
            return None;
        }
        entries.extend(calls::orthonormalize(d, p.rounds, &basis));
    }
    let projects = |v: &[f32]| entries.chunks(d).all(|row| calls::dot(v, row).is_finite());
    let mut index = index::run(d, n, p.mode, &entries).unwrap();
    let mut out = vec![format!("run {d} {n} {} {} {} {} {} {} {seed}", p.capacity, p.mode, p.rounds, p.grain, hex(p.scale), hex(p.aim))];
    let mut held = BTreeSet::new();
    for batch in &p.batches {
        for _ in 0..*batch {
            let id = draw.below(p.capacity as u64);
            let v = draw.vector(d, p.grain, p.scale);
            if !calls::normalizes(&v) || !projects(&v) {
                return None;
            }
            index.add(id, &v).unwrap();
            held.insert(id);
        }
        out.push(format!("add {batch}"));
        for q in 0..p.finds {
            let k = asks.below(p.k + 1) as usize;
            // From 0 up to a little more than any layer can hold.
            let spread = if q % 2 == 0 { 6 } else { held.len() as u64 + 2 };
            let search_k = asks.below(spread) as usize;
            let spill = asks.below(d as u64 + 2) as usize / (1 + q % 3);
            let target = draw.vector(d, p.grain, p.aim);
            if !projects(&target) {
                return None;
            }
            let asked = format!("find {k} {search_k} {spill}");
            match index.find(&target, k, search_k, spill) {
                Ok(l) => {
                    assert!(l.entries.iter().all(|(_, s)| !s.is_nan()));
                    out.push(line(&[asked, shown(&l)]))
                }
                Err(_) => out.push(line(&[asked, "none".into()])),
            }
        }
        for _ in 0..p.scans {
            let k = asks.below(p.k + 1) as usize;
            let target = draw.vector(d, p.grain, p.aim);
            let l = index.scan(&target, k).unwrap();
            assert!(l.entries.iter().all(|(_, s)| !s.is_nan()));
            assert_eq!(l.checked, held.len());
            out.push(line(&[format!("scan {k}"), shown(&l)]));
        }
        let m = index::memory(index.as_ref(), d, n, p.capacity, p.mode);
        out.push(format!("memory {:08x} {:08x} {:08x}", digest_words(&m.faces), digest_words(&m.marks), digest(m.vectors.iter().map(|b| *b as u32))));
    }
    Some(out)
}

fn indexes() -> Vec<String> {
    let unit = 1.0 / 64.0;
    let mut plans = Vec::new();
    for mode in [0, 1] {
        let mut plan = |d, n, capacity, rounds, grain, scale, aim, batches: &[usize], finds, scans, k| {
            let seed = 1000 * (plans.len() as u64 + 1);
            plans.push(Plan { d, n, capacity, mode, rounds, grain, scale, aim, batches: batches.to_vec(), finds, scans, k, seed })
        };
        // Small, with many ties: the bases are used as drawn.
        plan(1, 1, 64, 0, 3, unit, unit, &[0, 5, 20], 6, 2, 6);
        plan(2, 1, 64, 0, 2, unit, unit, &[1, 6, 20], 8, 2, 8);
        plan(3, 2, 128, 0, 2, unit, unit, &[10, 40], 8, 2, 8);
        plan(4, 3, 128, 1, 5, unit, unit, &[10, 60], 8, 2, 8);
        plan(8, 4, 256, 1, 128, unit, unit, &[40, 100], 8, 2, 10);
        plan(5, 32, 64, 1, 128, unit, unit, &[30], 8, 1, 10);
        plan(7, 4, 192, 2, 128, unit, unit, &[60], 8, 1, 10);
        plan(15, 5, 256, 1, 64, unit, unit, &[90], 8, 1, 12);
        // Sixteen dimensions and more: dot_product_non_optimized.
        plan(16, 6, 512, 1, 128, unit, unit, &[100, 200], 8, 2, 12);
        plan(17, 3, 320, 0, 9, unit, unit, &[150], 8, 1, 12);
        plan(32, 8, 1024, 1, 128, unit, unit, &[200, 400], 10, 2, 12);
        plan(33, 4, 128, 1, 1, unit, unit, &[100], 8, 1, 12);
        plan(64, 2, 256, 1, 128, unit, unit, &[150], 6, 1, 12);
        // The longest list.
        plan(6, 4, 1024, 1, 128, unit, unit, &[900], 3, 2, 256);
        // Far targets (scores up to infinity), and vectors whose squares are subnormal.
        plan(4, 2, 64, 1, 128, 2f32.powi(-66), 2f32.powi(57), &[30], 6, 2, 8);
        plan(4, 2, 64, 1, 128, 2f32.powi(50), 2f32.powi(-140), &[30], 6, 2, 8);
    }
    let mut out = Vec::new();
    for p in &plans {
        let run = (p.seed..p.seed + 1000).find_map(|seed| played(p, seed)).expect("no seed keeps to the domain");
        out.extend(run);
    }
    out
}
