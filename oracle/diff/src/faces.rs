//! find_face_idx and the faces picked by spilling.

use crate::inputs::{self, Ask};
use crate::port::Port;
use crate::tally::Tally;
use oracle::calls;
use oracle::text::{hexes, list};

const KEPT: i32 = 0x5a5a5a5a;

struct Tallies {
    faces: Tally,
    spills: Tally,
}

impl Tallies {
    fn face(&mut self, port: &Port, p: &[f32]) {
        let theirs = calls::face(p);
        let mut out = [KEPT];
        let number = port.find_face_idx(p, &mut out);
        self.faces.note(number == 0 && out[0] == theirs, || format!("face {} {}: port {number} {}, Rust {theirs}", p.len(), hexes(p), out[0]));
    }

    fn spill(&mut self, port: &Port, p: &[f32], spill: usize) {
        let (theirs, after) = calls::spill(p, spill);
        let mut ours = p.to_vec();
        let mut faces = vec![KEPT; p.len()];
        let number = port.spill_faces(&mut ours, spill, &mut faces);
        let listed = faces[..theirs.len()] == theirs && faces[theirs.len()..].iter().all(|f| *f == KEPT);
        let zeroed = ours.iter().zip(&after).all(|(a, b)| a.to_bits() == b.to_bits());
        self.spills.note(number == 0 && listed && zeroed, || {
            format!("spill {spill} {} {}: port {number} {}, Rust {}", p.len(), hexes(p), list(&faces), list(&theirs))
        });
    }
}

pub fn faces(port: &Port, ask: Ask) -> Vec<Tally> {
    let mut t = Tallies { faces: Tally::new("faces"), spills: Tally::new("spilling") };
    // Every short projection out of five numbers with ties; spilling for as long as the search behind it is quick.
    let few = [0.0, -0.0, 1.0, -1.0, 2.0];
    for d in 1..=if ask.short { 5 } else { 8u32 } {
        for code in 0..5u32.pow(d) {
            let p: Vec<f32> = (0..d).map(|i| few[(code / 5u32.pow(i) % 5) as usize]).collect();
            t.face(port, &p);
            if d <= 3 || d <= 5 && !ask.short {
                for spill in 0..=d as usize + 1 {
                    t.spill(port, &p, spill);
                }
            }
        }
    }
    // Every length, with peaks of either sign planted among smaller numbers; and numbers of any size.
    for d in (1..=1024usize).filter(|d| !ask.short || *d < 20 || d % 61 == 0) {
        let mut draw = ask.draw(3, d as u64);
        for round in 0..ask.amount(24) {
            let mut p: Vec<f32> = match round % 4 {
                0 => vec![0.0; d],
                1 => draw.vector(d, 1, 1.0),
                2 => draw.vector(d, 50, 0.5),
                _ => {
                    let style = draw.below(inputs::FINITE);
                    inputs::vector(&mut draw, d, style)
                }
            };
            for _ in 0..draw.below(4) {
                let at = draw.below(d as u64) as usize;
                p[at] = inputs::pick(&mut draw, &[30.0, -30.0]);
            }
            t.face(port, &p);
            if round % 8 < 4 {
                let spill = match draw.below(8) {
                    0 => 0,
                    1 => d - 1,
                    2 => d,
                    3 => d + 1,
                    4 => usize::MAX,
                    _ => draw.below(d as u64 + 1) as usize,
                };
                // The longest lists take their time: each face is one pass.
                t.spill(port, &p, if d > 300 && spill > 40 && round % 8 != 2 { spill % 40 } else { spill });
            }
        }
    }
    vec![t.faces, t.spills]
}
