//! Result sets fed by themselves.

use crate::inputs::{self, Ask};
use crate::port::{Out, Port};
use crate::tally::Tally;
use oracle::calls;
use oracle::text::{hex, line};

pub const KEPT_ID: u32 = 0xa5a5a5a5;
pub const KEPT_SCORE: u32 = 0x7fa5a5a5;

pub fn out(k: usize, told: usize) -> Out {
    Out { ids: vec![KEPT_ID; k], scores: vec![f32::from_bits(KEPT_SCORE); k], told: vec![KEPT_ID; told] }
}

/// Is this the accepted list, and everything beyond it as it was?
pub fn holds(out: &Out, list: &calls::List) -> bool {
    let l = list.entries.len();
    out.told[0] as usize == l
        && out.told[1] as usize == list.checked
        && list.entries.iter().enumerate().all(|(i, (id, s))| out.ids[i] as u64 == *id && out.scores[i].to_bits() == s.to_bits())
        && out.ids[l..].iter().all(|x| *x == KEPT_ID)
        && out.scores[l..].iter().all(|x| x.to_bits() == KEPT_SCORE)
}

pub fn untouched(out: &Out) -> bool {
    out.ids.iter().all(|x| *x == KEPT_ID) && out.scores.iter().all(|x| x.to_bits() == KEPT_SCORE) && out.told.iter().all(|x| *x == KEPT_ID)
}

pub fn shown(out: &Out) -> String {
    let entries: Vec<String> = out.ids.iter().zip(&out.scores).take(8).map(|(id, s)| format!("{id} {}", hex(*s))).collect();
    format!("told {:?} list {}", out.told, entries.join(" "))
}

pub fn list_shown(list: &calls::List) -> String {
    let entries: Vec<String> = list.entries.iter().take(8).map(|(id, s)| format!("{id} {}", hex(*s))).collect();
    format!("found {} checked {} list {}", list.entries.len(), list.checked, entries.join(" "))
}

pub fn results(port: &Port, ask: Ask) -> Vec<Tally> {
    let mut t = Tally::new("result sets");
    let mut feeds_made = 0;
    let mut one = |k: usize, feeds: &[(u64, f32)]| {
        let ids: Vec<u32> = feeds.iter().map(|f| f.0 as u32).collect();
        let scores: Vec<f32> = feeds.iter().map(|f| f.1).collect();
        let theirs = calls::feed(k, feeds);
        let mut ours = out(k, 2);
        let number = port.feed(k, &ids, &scores, &mut ours);
        feeds_made += feeds.len() as u64;
        t.note(number == 0 && holds(&ours, &theirs), || {
            let given: Vec<String> = feeds.iter().map(|(id, s)| format!("{id} {}", hex(*s))).collect();
            line(&[
                format!("results {k} {}", feeds.len()),
                given.join(" "),
                format!(": port {number} {}, Rust {}", shown(&ours), list_shown(&theirs)),
            ])
        });
    };
    // Every four feeds out of three ids and three scores, k up to four.
    for code in 0..9u32.pow(4) {
        let feeds: Vec<(u64, f32)> = (0..4).map(|i| code / 9u32.pow(i) % 9).map(|c| ((c % 3) as u64, [1.0, 2.0, 3.0][(c / 3) as usize])).collect();
        for k in 0..=4 {
            one(k, &feeds);
        }
    }
    let special = [f32::INFINITY, f32::NEG_INFINITY, 0.0, -0.0, f32::MIN, f32::MAX, f32::from_bits(1), f32::from_bits(0x80000001)];
    let mut draw = ask.draw(5, 0);
    for i in 0..ask.amount(20000) {
        let k = match i % 6 {
            0 => draw.below(257),
            1 => 256,
            _ => draw.below(12),
        } as usize;
        let m = if i % 9 == 0 { draw.below(2000) } else { draw.below(80) };
        let ids = inputs::pick(&mut draw, &[3, 9, 40, 300, 4294967296]);
        let grain = inputs::pick(&mut draw, &[1, 3, 50, 100000]);
        let feeds: Vec<(u64, f32)> = (0..m)
            .map(|_| {
                let id = if ids == 4294967296 { draw.bits() as u64 } else { draw.below(ids) };
                let score = match draw.below(6) {
                    0 => inputs::pick(&mut draw, &special),
                    1 => inputs::float(&mut draw, 0, 254),
                    _ => draw.component(grain, 0.25),
                };
                (id, score)
            })
            .collect();
        one(k, &feeds);
    }
    t.apart = Some(("feeds", feeds_made));
    vec![t]
}
