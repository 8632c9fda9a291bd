//! Merging sets into counting layers, and top_k.

use crate::inputs::{self, Ask};
use crate::port::Port;
use crate::tally::Tally;
use oracle::calls;
use oracle::text::{line, words};
use std::collections::BTreeSet;

fn asked(name: &str, n: usize, w: usize, sets: &[Vec<u64>]) -> String {
    let given: Vec<u64> = sets.iter().flat_map(|ids| calls::words_of(ids, w)).collect();
    line(&[format!("{name} {n} {w} {}", sets.len()), words(&given)])
}

struct Tallies {
    merges: Tally,
    dropped: Tally,
    top: Tally,
}

impl Tallies {
    fn play(&mut self, port: &Port, n: usize, w: usize, sets: &[Vec<u64>]) {
        let mut layers = vec![0u64; n * w];
        let (mut given, mut all_dropped) = (0u64, 0u64);
        let mut last: Vec<u64> = Vec::new();
        for m in 1..=sets.len() {
            let so_far = &sets[..m];
            let ids = &sets[m - 1];
            let mut set = calls::words_of(ids, w);
            let mut out = [0xa5a5a5a5];
            let number = port.counting_or(&mut layers, &mut set, 64 * w, n, &mut out);
            let theirs = calls::layers(n, so_far);
            let held: Vec<u64> = theirs.layers.iter().flat_map(|l| calls::words_of(l, w)).collect();
            self.merges.note(number == 0 && layers == held, || {
                format!("{}: port {number} {}, Rust {}", asked("layers", n, w, so_far), words(&layers), words(&held))
            });
            // What fell off was in the last layer before. The Rust throws it away; its number follows from the counts.
            let fallen: Vec<u64> = ids.iter().copied().filter(|id| last.binary_search(id).is_ok()).collect();
            given += ids.len() as u64;
            all_dropped += out[0] as u64;
            let kept: u64 = theirs.counts.iter().map(|c| *c as u64).sum();
            self.dropped.note(given == kept + all_dropped && out[0] as usize == fallen.len() && set == calls::words_of(&fallen, w), || {
                format!("{}: dropped {} and {}, due {}", asked("layers", n, w, so_far), out[0], words(&set), fallen.len())
            });
            last = theirs.layers[n - 1].clone();
        }
        let mut wanted = BTreeSet::from([0, 1, 2, 64 * w, 64 * w + 1, usize::MAX]);
        for l in &calls::layers(n, sets).counts {
            wanted.extend([l.saturating_sub(1), *l, l + 1]);
        }
        for search_k in wanted {
            let theirs = calls::top_k(n, sets, search_k);
            let mut out = [usize::MAX];
            let number = port.top_k(&layers, 64 * w, n, search_k, &mut out);
            self.top.refused += theirs.is_none() as u64;
            let same = match theirs {
                Some(layer) => number == 0 && out[0] == layer,
                None => number == 8 && out[0] == usize::MAX,
            };
            self.top.note(same, || format!("{}: port {number} {}, Rust {theirs:?}", asked(&format!("topk {search_k}"), n, w, sets), out[0]));
        }
    }
}

pub fn layers(port: &Port, ask: Ask) -> Vec<Tally> {
    let mut t =
        Tallies { merges: Tally::new("layers after each merge"), dropped: Tally::new("dropped ids and their count"), top: Tally::new("top_k") };
    // Every three sets out of three ids, into one to four layers.
    for code in 0..512u64 {
        let sets: Vec<Vec<u64>> =
            (0..3).map(|s| (0..3).filter(|b| code >> (3 * s + b) & 1 == 1).map(|b| [0, 63, 64][b as usize]).collect()).collect();
        for n in 1..=4 {
            t.play(port, n, 2, &sets);
        }
    }
    let mut draw = ask.draw(4, 0);
    for i in 0..ask.amount(1200) {
        let n = if i % 5 == 0 { 1 + draw.below(32) } else { 1 + draw.below(6) } as usize;
        let w = if i % 7 == 0 { 1 + draw.below(16) } else { 1 + draw.below(3) } as usize;
        let most = if i % 11 == 0 { 40 } else { 10 };
        let capacity = 64 * w as u64;
        let sets: Vec<Vec<u64>> = (0..draw.below(most + 1))
            .map(|_| {
                let one_in = inputs::pick(&mut draw, &[1, 2, 2, 5, 30, 200]);
                let end = if draw.below(4) == 0 { 1 + draw.below(capacity) } else { capacity };
                (0..end).filter(|_| draw.below(one_in) == 0).collect()
            })
            .collect();
        t.play(port, n, w, &sets);
    }
    vec![t.merges, t.dropped, t.top]
}
