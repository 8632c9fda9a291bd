//! Calls to which the published Rust has no answer, against the rules as the stub has them: wrong lengths and numbers, memory that no index
//! grew to, everything that is refused. Numbers and all lent memory afterwards are compared.

use crate::inputs::{self, pick, Ask};
use crate::port::{Geometry, Lent, Out, Port, Sizes, Work, SEARCH_TOLD};
use crate::stub;
use crate::tally::Tally;
use oracle::draw::Draw;

/// A length that is wrong, or right.
fn bend<T: Clone>(v: &mut Vec<T>, draw: &mut Draw) {
    match draw.below(4) {
        0 => {
            v.pop();
        }
        1 => v.clear(),
        _ => {
            if let Some(last) = v.last().cloned() {
                v.push(last);
            }
        }
    }
}

fn words(draw: &mut Draw, n: usize, thin: u64) -> Vec<u64> {
    let one = |draw: &mut Draw| (draw.bits() as u64) << 32 | draw.bits() as u64;
    (0..n)
        .map(|_| match thin {
            0 => 0,
            1 => one(draw) & one(draw) & one(draw) & one(draw),
            2 => one(draw),
            _ => u64::MAX,
        })
        .collect()
}

fn floats_same(a: &[f32], b: &[f32]) -> bool {
    a.len() == b.len() && a.iter().zip(b).all(|(x, y)| x.to_bits() == y.to_bits() || x.is_nan() && y.is_nan())
}

fn bits_same(a: &[f32], b: &[f32]) -> bool {
    a.len() == b.len() && a.iter().zip(b).all(|(x, y)| x.to_bits() == y.to_bits())
}

/// Everything that a call of the index may be lent.
#[derive(Clone, Debug)]
struct All {
    g: Geometry,
    id: usize,
    k: usize,
    search_k: usize,
    spill: usize,
    bases: Vec<f32>,
    a: Lent,
    b: Lent,
    work: Work,
    vector: Vec<f32>,
    out: Out,
}

fn all_same(x: &All, y: &All) -> bool {
    x.a == y.a
        && x.b == y.b
        && bits_same(&x.work.floats, &y.work.floats)
        && x.work.layers == y.work.layers
        && x.work.set == y.work.set
        && x.out.ids == y.out.ids
        && x.out.told == y.out.told
        && bits_same(&x.out.scores, &y.out.scores)
}

fn stored(draw: &mut Draw, g: Geometry, plain: bool) -> Vec<u8> {
    let size = if g.mode == 0 { 4 } else { 2 };
    (0..g.cap * g.d)
        .flat_map(|_| {
            let x = if plain { draw.component(50, 1.0 / 64.0).to_bits() } else { draw.bits() };
            x.to_le_bytes()[4 - size..].to_vec()
        })
        .collect()
}

fn drawn(draw: &mut Draw, told: usize) -> All {
    let g = Geometry {
        d: 1 + draw.below(5) as usize,
        n: 1 + draw.below(3) as usize,
        cap: 64 * (1 + draw.below(2)) as usize,
        mode: draw.below(2) as usize,
    };
    let w = g.cap / 64;
    let k = draw.below(7) as usize;
    // Stored bytes that are NaN refuse 10, a face bit without a mark 9: not always.
    let plain = draw.below(3) > 0;
    let thin = 1 + draw.below(2);
    let marks = if draw.below(3) > 0 { 3 } else { thin };
    let styles = [inputs::usual_style(draw), inputs::usual_style(draw)];
    let one = |draw: &mut Draw, marks: u64| Lent {
        faces: words(draw, g.n * 2 * g.d * w, thin),
        marks: words(draw, w, marks),
        vectors: stored(draw, g, plain),
    };
    let (a, b) = (one(draw, marks), one(draw, pick(&mut draw.clone(), &[0, 0, 1])));
    All {
        g,
        id: draw.below(g.cap as u64) as usize,
        k,
        search_k: draw.below(8) as usize,
        spill: draw.below(7) as usize,
        bases: inputs::vector(draw, g.n * g.d * g.d, styles[0]),
        a,
        b,
        work: Work { floats: vec![f32::from_bits(0x7fa5a5a5); g.d], layers: words(draw, g.n * w, 2), set: words(draw, w, 2) },
        vector: inputs::vector(draw, g.d, styles[1]),
        out: Out { ids: vec![0xa5a5a5a5; k], scores: vec![f32::from_bits(0x7fa5a5a5); k], told: vec![0xa5a5a5a5; told] },
    }
}

/// Bends up to two things.
fn bent(x: &mut All, draw: &mut Draw) {
    for _ in 0..draw.below(3) {
        let g = x.g;
        match draw.below(22) {
            0 => x.g.d = pick(draw, &[0, 1025, g.d.saturating_add(1), usize::MAX]),
            1 => x.g.n = pick(draw, &[0, 33, g.n.saturating_add(1), usize::MAX]),
            2 => x.g.cap = pick(draw, &[0, 63, 65, g.cap.saturating_add(64), 65600, usize::MAX - 63]),
            3 => x.g.mode = pick(draw, &[2, 1 - g.mode.min(1), usize::MAX]),
            4 => x.id = pick(draw, &[g.cap, g.cap.saturating_add(1), 1 << 32, usize::MAX]),
            5 => {
                x.k = 257 + draw.below(3) as usize;
                x.out.ids.resize(x.k, 7);
                x.out.scores.resize(x.k, 7.0);
            }
            6 => bend(&mut x.bases, draw),
            7 => bend(&mut x.a.faces, draw),
            8 => bend(&mut x.a.marks, draw),
            9 => bend(&mut x.a.vectors, draw),
            10 => bend(&mut x.b.faces, draw),
            11 => bend(&mut x.b.marks, draw),
            12 => bend(&mut x.b.vectors, draw),
            13 => bend(&mut x.work.floats, draw),
            14 => bend(&mut x.work.layers, draw),
            15 => bend(&mut x.work.set, draw),
            16 => bend(&mut x.vector, draw),
            17 => bend(&mut x.out.ids, draw),
            18 => bend(&mut x.out.scores, draw),
            19 => bend(&mut x.out.told, draw),
            20 => x.vector.fill(0.0),
            _ => x.search_k = pick(draw, &[1000, usize::MAX]),
        }
    }
}

fn index_calls(port: &Port, rules: &Port, ask: Ask, all: &mut Vec<Tally>) {
    type Call = fn(&Port, &mut All) -> u32;
    let calls: [(&str, usize, Call); 5] = [
        ("new", 2, |p, x| p.new_index(&mut x.a, x.g)),
        ("add_vector", 2, |p, x| p.add_vector(&x.bases, &mut x.a, &mut x.work.floats, &x.vector, x.g, x.id)),
        ("find_nearest", SEARCH_TOLD, |p, x| p.find_nearest(&x.bases, &x.a, &mut x.work, &x.vector, &mut x.out, x.g, x.k, x.search_k, x.spill)),
        ("full_table_scan", 2, |p, x| p.full_table_scan(&x.a, &x.vector, &mut x.out, x.g, x.k)),
        ("merge", 2, |p, x| p.merge(&mut x.a, &x.b, x.g)),
    ];
    for (c, (name, told, call)) in calls.iter().enumerate() {
        let mut t = Tally::new(format!("rules: {name}"));
        let mut draw = ask.draw(10, c as u64);
        for _ in 0..ask.amount(20000) {
            let mut ours = drawn(&mut draw, *told);
            bent(&mut ours, &mut draw);
            let mut due = ours.clone();
            let before = ours.clone();
            let number = call(port, &mut ours);
            let wanted = stub::clean(|| call(rules, &mut due));
            t.refused += (wanted != 0) as u64;
            t.note(number == wanted && all_same(&ours, &due), || format!("port {number}, by the rules {wanted}: {before:?}"));
        }
        all.push(t);
    }
}

fn sizes(port: &Port, rules: &Port, ask: Ask, all: &mut Vec<Tally>) {
    let mut t = Tally::new("rules: sizes to lend");
    let mut draw = ask.draw(11, 0);
    let ds = [0, 1, 2, 3, 7, 16, 63, 512, 1023, 1024, 1025, usize::MAX];
    let ns = [0, 1, 2, 5, 31, 32, 33, usize::MAX];
    let caps = [0, 1, 63, 64, 65, 127, 128, 4096, 65472, 65535, 65536, 65537, 65600, usize::MAX, usize::MAX - 63];
    let mut one = |g: Geometry| {
        let (ours, due): (Sizes, Sizes) = (port.sizes(g), stub::clean(|| rules.sizes(g)));
        t.refused += (due.bases == 0) as u64;
        t.note(ours == due, || format!("{g:?}: port {ours:?}, by the rules {due:?}"));
    };
    for d in ds {
        for n in ns {
            for cap in caps {
                for mode in [0, 1, 2, usize::MAX] {
                    one(Geometry { d, n, cap, mode });
                }
            }
        }
    }
    for _ in 0..ask.amount(20000) {
        one(Geometry {
            d: draw.below(1030) as usize,
            n: draw.below(35) as usize,
            cap: 64 * draw.below(1030) as usize + draw.below(50).saturating_sub(48) as usize,
            mode: draw.below(50) as usize / 20,
        });
    }
    all.push(t);
}

fn leaf_calls(port: &Port, rules: &Port, ask: Ask, all: &mut Vec<Tally>) {
    let mut draw = ask.draw(12, 0);
    let draw = &mut draw;
    let mut pairs = Tally::new("rules: dot_product and distance");
    for _ in 0..ask.amount(20000) {
        let length = draw.below(6) as usize;
        let style = draw.below(inputs::STYLES);
        let (mut a, mut b) = (inputs::vector(draw, length, style), inputs::vector(draw, length, 3));
        let mut out = vec![f32::from_bits(0x7fa5a5a5)];
        for _ in 0..draw.below(2) {
            match draw.below(3) {
                0 => bend(&mut a, draw),
                1 => bend(&mut b, draw),
                _ => bend(&mut out, draw),
            }
        }
        for which in 0..2 {
            let ask = |p: &Port, out: &mut [f32]| if which == 0 { p.dot_product(&a, &b, out) } else { p.distance(&a, &b, out) };
            let (mut ours, mut due) = (out.clone(), out.clone());
            let number = ask(port, &mut ours);
            let wanted = stub::clean(|| ask(rules, &mut due));
            pairs.refused += (wanted != 0) as u64;
            let kept = if wanted == 0 { floats_same(&ours, &due) } else { bits_same(&ours, &due) };
            pairs.note(number == wanted && kept, || format!("{which} {a:?} {b:?} {out:?}: port {number}, by the rules {wanted}"));
        }
    }
    let mut ortho = Tally::new("rules: orthonormalize");
    for _ in 0..ask.amount(10000) {
        let mut d = 1 + draw.below(4) as usize;
        let style = inputs::usual_style(draw);
        let mut basis = inputs::vector(draw, d * d, style);
        let mut out = vec![f32::from_bits(0x7fa5a5a5); d * d];
        let mut rounds = draw.below(9) as usize;
        for _ in 0..draw.below(3) {
            match draw.below(4) {
                0 => bend(&mut basis, draw),
                1 => bend(&mut out, draw),
                2 => d = pick(draw, &[0, 1025, 1 << 32, usize::MAX, d.saturating_add(1)]),
                _ => rounds = pick(draw, &[9, 10, usize::MAX]),
            }
        }
        let (mut ours, mut due) = (out.clone(), out.clone());
        let number = port.orthonormalize(&basis, &mut ours, d, rounds);
        let wanted = stub::clean(|| rules.orthonormalize(&basis, &mut due, d, rounds));
        ortho.refused += (wanted != 0) as u64;
        ortho.note(number == wanted && bits_same(&ours, &due), || format!("{d} {rounds} {basis:?}: port {number}, by the rules {wanted}"));
    }
    let mut faces = Tally::new("rules: find_face_idx and spill_faces");
    for i in 0..ask.amount(20000) {
        let length = if i % 50 == 0 { pick(draw, &[0, 1023, 1024, 1025, 2000]) } else { draw.below(7) as usize };
        let style = inputs::usual_style(draw);
        let p = inputs::vector(draw, length, style);
        let mut one = vec![0x5a5a5a5a];
        let mut out = vec![0x5a5a5a5a; length];
        if draw.below(4) == 0 {
            bend(&mut one, draw);
            bend(&mut out, draw);
        }
        let spill = if length > 100 { draw.below(9) as usize } else { pick(draw, &[0, 1, 2, length, usize::MAX]) };
        let (mut ours, mut due) = (one.clone(), one.clone());
        let number = port.find_face_idx(&p, &mut ours);
        let wanted = stub::clean(|| rules.find_face_idx(&p, &mut due));
        faces.refused += (wanted != 0) as u64;
        faces.note(number == wanted && ours == due, || format!("face {p:?} into {}: port {number}, by the rules {wanted}", one.len()));
        let (mut ours, mut due) = ((p.clone(), out.clone()), (p.clone(), out.clone()));
        let number = port.spill_faces(&mut ours.0, spill, &mut ours.1);
        let wanted = stub::clean(|| rules.spill_faces(&mut due.0, spill, &mut due.1));
        faces.refused += (wanted != 0) as u64;
        faces.note(number == wanted && bits_same(&ours.0, &due.0) && ours.1 == due.1, || {
            format!("spill {spill} {p:?} into {}: port {number}, by the rules {wanted}", out.len())
        });
    }
    let mut layers = Tally::new("rules: counting_or and top_k, on any layers");
    for _ in 0..ask.amount(20000) {
        let (mut n, w) = (1 + draw.below(4) as usize, 1 + draw.below(3) as usize);
        let mut cap = 64 * w;
        let thin = draw.below(4);
        let (mut held, mut set) = (words(draw, n * w, thin), words(draw, w, 2));
        let (mut dropped, mut layer) = (vec![0xa5a5a5a5u32], vec![usize::MAX]);
        for _ in 0..draw.below(3) {
            match draw.below(6) {
                0 => n = pick(draw, &[0, 33, usize::MAX, n.saturating_add(1)]),
                1 => cap = pick(draw, &[0, 63, cap.saturating_add(1), cap.saturating_add(64), 65600, usize::MAX]),
                2 => bend(&mut held, draw),
                3 => bend(&mut set, draw),
                4 => bend(&mut dropped, draw),
                _ => bend(&mut layer, draw),
            }
        }
        let (mut ours, mut due) = ((held.clone(), set.clone(), dropped.clone()), (held.clone(), set.clone(), dropped.clone()));
        let number = port.counting_or(&mut ours.0, &mut ours.1, cap, n, &mut ours.2);
        let wanted = stub::clean(|| rules.counting_or(&mut due.0, &mut due.1, cap, n, &mut due.2));
        layers.refused += (wanted != 0) as u64;
        layers.note(number == wanted && ours == due, || format!("counting_or {n} {cap} {held:x?} {set:x?}: port {number}, by the rules {wanted}"));
        let search_k = pick(draw, &[0, 1, 10, 32, 64, 100, usize::MAX]);
        let (mut ours, mut due) = (layer.clone(), layer.clone());
        let number = port.top_k(&held, cap, n, search_k, &mut ours);
        let wanted = stub::clean(|| rules.top_k(&held, cap, n, search_k, &mut due));
        layers.refused += (wanted != 0) as u64;
        layers.note(number == wanted && ours == due, || {
            format!("top_k {search_k} {n} {cap} {held:x?}: port {number} {ours:?}, by the rules {wanted} {due:?}")
        });
    }
    let mut feeds = Tally::new("rules: feed");
    for _ in 0..ask.amount(20000) {
        let mut k = draw.below(6) as usize;
        let m = draw.below(9) as usize;
        let mut ids: Vec<u32> = (0..m).map(|_| draw.below(5) as u32).collect();
        let mut scores: Vec<f32> = (0..m).map(|_| if draw.below(30) == 0 { f32::NAN } else { draw.component(2, 1.0) }).collect();
        let mut out = Out { ids: vec![0xa5a5a5a5; k], scores: vec![f32::from_bits(0x7fa5a5a5); k], told: vec![0xa5a5a5a5; 2] };
        if draw.below(3) == 0 {
            match draw.below(6) {
                0 => bend(&mut ids, draw),
                1 => bend(&mut scores, draw),
                2 => bend(&mut out.ids, draw),
                3 => bend(&mut out.scores, draw),
                4 => bend(&mut out.told, draw),
                _ => {
                    k = 257 + draw.below(3) as usize;
                    out.ids.resize(k, 7);
                    out.scores.resize(k, 7.0);
                }
            }
        }
        let (mut ours, mut due) = (out.clone(), out.clone());
        let number = port.feed(k, &ids, &scores, &mut ours);
        let wanted = stub::clean(|| rules.feed(k, &ids, &scores, &mut due));
        feeds.refused += (wanted != 0) as u64;
        let kept = ours.ids == due.ids && ours.told == due.told && bits_same(&ours.scores, &due.scores);
        feeds.note(number == wanted && kept, || {
            format!("{k} {ids:?} {scores:?} into {} {} {}: port {number}, by the rules {wanted}", out.ids.len(), out.scores.len(), out.told.len())
        });
    }
    all.extend([pairs, ortho, faces, layers, feeds]);
}

pub fn rules(port: &Port, ask: Ask) -> Vec<Tally> {
    let rules = Port::stub();
    let mut all = Vec::new();
    sizes(port, &rules, ask, &mut all);
    leaf_calls(port, &rules, ask, &mut all);
    index_calls(port, &rules, ask, &mut all);
    all
}
