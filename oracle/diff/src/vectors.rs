//! dot_product, distance, normalize, orthonormalize.

use crate::inputs::{self, Ask};
use crate::port::Port;
use crate::tally::{same, Tally};
use oracle::calls;
use oracle::text::{hex, hexes, line};

fn pair_asked(name: &str, a: &[f32], b: &[f32]) -> String {
    line(&[format!("{name} {} {}", a.len(), b.len()), hexes(a), hexes(b)])
}

pub fn vectors(port: &Port, ask: Ask) -> Vec<Tally> {
    let mut dots = Tally::new("dot_product");
    let mut distances = Tally::new("distance");
    let mut normals = Tally::new("normalize");
    let mut one_pair = |a: &[f32], b: &[f32]| {
        let mut out = [f32::from_bits(0x7fa5a5a5)];
        let (number, theirs) = (port.dot_product(a, b, &mut out), calls::dot(a, b));
        let (equal, zeros) = same(&out, &[theirs], true);
        dots.zeros += zeros;
        dots.note(number == 0 && equal, || format!("{}: port {number} {}, Rust {}", pair_asked("dot", a, b), hex(out[0]), hex(theirs)));
        let mut out = [f32::from_bits(0x7fa5a5a5)];
        let (number, theirs) = (port.distance(a, b, &mut out), calls::distance(a, b));
        let (equal, _) = same(&out, &[theirs], false);
        distances.note(number == 0 && equal, || format!("{}: port {number} {}, Rust {}", pair_asked("distance", a, b), hex(out[0]), hex(theirs)));
    };
    let mut one_alone = |v: &[f32]| {
        let due = if !v.iter().all(|x| x.is_finite()) {
            5
        } else if !calls::normalizes(v) {
            6
        } else {
            0
        };
        let mut ours = v.to_vec();
        let number = port.normalize(&mut ours);
        let theirs = if due == 0 { calls::normalize(v) } else { v.to_vec() };
        let kept = ours.iter().zip(&theirs).all(|(a, b)| a.to_bits() == b.to_bits());
        normals.refused += (due != 0) as u64;
        normals.note(number == due && kept, || {
            format!("normalize {} {}: port {number} {}, due {due} {}", v.len(), hexes(v), hexes(&ours), hexes(&theirs))
        });
    };
    // Every vector of up to four components out of a few numbers, in pairs with one another (up to three) and alone.
    let few = [0.0, -0.0, 1.0, -1.0, 3.0, 1e-23, f32::from_bits(1), 1e19, f32::MAX, f32::INFINITY];
    let count = few.len() as u64;
    for d in 0..=4u32 {
        for code in 0..count.pow(d) {
            let v: Vec<f32> = (0..d).map(|i| few[(code / count.pow(i) % count) as usize]).collect();
            one_alone(&v);
        }
    }
    for d in 0..=2u32 {
        for code in 0..count.pow(2 * d) {
            let v: Vec<f32> = (0..2 * d).map(|i| few[(code / count.pow(i) % count) as usize]).collect();
            one_pair(&v[..d as usize], &v[d as usize..]);
        }
    }
    for length in 0..=1024usize {
        let mut draw = ask.draw(1, length as u64);
        let rounds = if ask.short { (length % 16 == 1 || length < 20) as u64 } else { 6 * ask.times };
        for _ in 0..rounds {
            for style in 0..inputs::STYLES {
                let a = inputs::vector(&mut draw, length, style);
                let other = if draw.below(2) == 0 { style } else { draw.below(inputs::STYLES) };
                let b = inputs::vector(&mut draw, length, other);
                one_pair(&a, &b);
                one_alone(&a);
            }
        }
    }
    vec![dots, distances, normals]
}

pub fn orthonormalize(port: &Port, ask: Ask) -> Vec<Tally> {
    let mut t = Tally::new("orthonormalize");
    let mut one = |d: usize, rounds: usize, basis: &[f32]| {
        let due = if !basis.iter().all(|x| x.is_finite()) {
            5
        } else if !calls::orthonormalizes(d, rounds, basis) {
            6
        } else {
            0
        };
        let garbage = f32::from_bits(0x7fa5a5a5);
        let mut ours = vec![garbage; d * d];
        let number = port.orthonormalize(basis, &mut ours, d, rounds);
        let (equal, zeros) = match due {
            0 => same(&ours, &calls::orthonormalize(d, rounds, basis), true),
            5 => (ours.iter().all(|x| x.to_bits() == garbage.to_bits()), 0),
            _ => (ours.iter().all(|x| x.to_bits() == 0), 0),
        };
        t.zeros += zeros;
        t.refused += (due != 0) as u64;
        t.note(number == due && equal, || format!("orthonormalize {rounds} {d} {}: port {number} {}, due {due}", hexes(basis), hexes(&ours)));
    };
    // Every basis of two vectors out of five numbers.
    let few = [0.0, -0.0, 1.0, -1.0, 2.0];
    for code in 0..625usize {
        let basis: Vec<f32> = [1, 5, 25, 125].iter().map(|p| few[code / p % 5]).collect();
        for rounds in 0..=3 {
            one(2, rounds, &basis);
        }
    }
    let mut draw = ask.draw(2, 0);
    for i in 0..ask.amount(4000) {
        let d = 1 + (i % 24) as usize;
        let style = inputs::usual_style(&mut draw);
        let mut basis = inputs::vector(&mut draw, d * d, style);
        if draw.below(8) == 0 && d > 1 {
            // Two rows alike.
            let (a, b) = (draw.below(d as u64) as usize, draw.below(d as u64) as usize);
            basis.copy_within(a * d..(a + 1) * d, b * d);
        }
        one(d, draw.below(9) as usize, &basis);
    }
    for d in if ask.short { vec![33] } else { vec![33, 64, 100, 128, 200] } {
        let basis = inputs::vector(&mut draw, d * d, 3);
        one(d, 1, &basis);
        let basis = inputs::vector(&mut draw, d * d, 2);
        one(d, 2, &basis);
    }
    vec![t]
}
