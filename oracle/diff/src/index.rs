//! Whole index runs, and merging against replaying.

use crate::inputs::{self, pick, Ask};
use crate::port::{Geometry, Lent, Port, Work, SEARCH_TOLD};
use crate::results::{holds, list_shown, out, shown, untouched};
use crate::stub;
use crate::tally::Tally;
use oracle::calls;
use oracle::draw::Draw;
use oracle::index::{self, Index};
use oracle::text::{hexes, line};

#[derive(Clone)]
pub enum Step {
    Add { id: usize, vector: Vec<f32> },
    Find { target: Vec<f32>, k: usize, search_k: usize, spill: usize },
    Scan { target: Vec<f32>, k: usize },
    Memory,
}

pub struct Run {
    pub name: String,
    pub g: Geometry,
    pub bases: Vec<f32>,
    pub steps: Vec<Step>,
}

impl Step {
    /// As the binary `oracle` is asked.
    fn question(&self) -> String {
        match self {
            Step::Add { id, vector } => line(&[format!("add {id} {}", vector.len()), hexes(vector)]),
            Step::Find { target, k, search_k, spill } => line(&[format!("find {k} {search_k} {spill} {}", target.len()), hexes(target)]),
            Step::Scan { target, k } => line(&[format!("scan {k} {}", target.len()), hexes(target)]),
            Step::Memory => "memory".into(),
        }
    }
}

impl Run {
    /// The whole run as questions. Additions that the port refuses (the Rust doesn't) are left out.
    pub fn questions(&self) -> Vec<String> {
        let Geometry { d, n, cap, mode } = self.g;
        let mut all = vec![format!("index {d} {n} {cap} {mode}")];
        all.extend(self.bases.chunks(d * d).enumerate().map(|(b, entries)| line(&[format!("basis {b}"), hexes(entries)])));
        all.extend(self.steps.iter().filter(|s| !matches!(s, Step::Add { vector, .. } if self.due(vector) != 0)).map(|s| s.question()));
        all
    }

    /// What the paper has an addition of this vector answer.
    fn due(&self, v: &[f32]) -> u32 {
        if !v.iter().all(|x| x.is_finite()) {
            5
        } else if !calls::normalizes(v) {
            6
        } else if !self.projects(v) {
            7
        } else {
            0
        }
    }

    fn projects(&self, v: &[f32]) -> bool {
        self.bases.chunks(self.g.d).all(|row| calls::dot(v, row).is_finite())
    }
}

/// Lent memory with something in it.
pub fn lent(port: &Port, g: Geometry) -> Lent {
    let s = port.sizes(g);
    Lent { faces: vec![0x5a5a5a5a5a5a5a5a; s.faces], marks: vec![0xa5a5a5a5a5a5a5a5; s.marks], vectors: vec![0x5a; s.vectors] }
}

const WORK_FLOAT: u32 = 0x7fa5a5a5;
const WORK_WORD: u64 = 0xa5a5a5a55a5a5a5a;

fn work(port: &Port, g: Geometry) -> Work {
    let s = port.sizes(g);
    let mut w = Work { floats: vec![0.0; s.work], layers: vec![0; s.layers], set: vec![0; s.set] };
    soil(&mut w);
    w
}

/// Work memory may hold anything before a call.
fn soil(w: &mut Work) {
    w.floats.fill(f32::from_bits(WORK_FLOAT));
    w.layers.fill(WORK_WORD);
    w.set.fill(WORK_WORD);
}

/// Past the refusals 1 to 5 all zeros, otherwise as before.
fn left_right(floats: &[f32], words: &[&[u64]], number: u32) -> bool {
    let (float, word) = if (1..=5).contains(&number) { (WORK_FLOAT, WORK_WORD) } else { (0, 0) };
    floats.iter().all(|x| x.to_bits() == float) && words.iter().all(|ws| ws.iter().all(|w| *w == word))
}

pub struct Tallies {
    pub adds: Tally,
    pub finds: Tally,
    pub scans: Tally,
    pub memory: Tally,
    pub work: Tally,
}

impl Tallies {
    fn new(kind: &str) -> Self {
        let name = |what: &str| Tally::new(format!("{kind}: {what}"));
        Self {
            adds: name("additions"),
            finds: name("searches"),
            scans: name("scans"),
            memory: name("face sets, marks and stored bytes"),
            work: name("work memory after a call"),
        }
    }

    fn all(self) -> Vec<Tally> {
        vec![self.adds, self.finds, self.scans, self.memory, self.work]
    }
}

/// Does the lent memory hold what the Rust holds?
fn held(lent: &Lent, rust: &dyn Index, g: Geometry) -> bool {
    let m = index::memory(rust, g.d, g.n, g.cap, g.mode);
    lent.faces == m.faces && lent.marks == m.marks && lent.vectors == m.vectors
}

/// A pipe carries the whole index there and back for each addition: of a run of more additions than these about so many are asked.
const PIPED_ADDITIONS: usize = 120;

struct Player<'a> {
    port: &'a Port,
    run: &'a Run,
    rust: Box<dyn Index>,
    lent: Lent,
    work: Work,
    /// Every so manieth addition is asked of the port. The stub makes the others, and they aren't counted.
    every: usize,
    added: usize,
}

impl<'a> Player<'a> {
    fn new(port: &'a Port, run: &'a Run) -> Self {
        let mut lent = lent(port, run.g);
        port.new_index(&mut lent, run.g);
        let rust = index::run(run.g.d, run.g.n, run.g.mode, &run.bases).unwrap();
        Self { port, run, rust, lent, work: work(port, run.g), every: 1, added: 0 }
    }

    fn step(&mut self, at: usize, step: &Step, t: &mut Tallies) {
        let (run, g) = (self.run, self.run.g);
        let tell = |what: String| format!("run {}, step {at}, {}: {what}", run.name, step.question().chars().take(200).collect::<String>());
        soil(&mut self.work);
        match step {
            Step::Add { id, vector } => {
                let due = run.due(vector);
                let asked = self.added % self.every == 0;
                self.added += 1;
                let mut add = |port: &Port| port.add_vector(&run.bases, &mut self.lent, &mut self.work.floats, vector, g, *id);
                let number = if asked { add(self.port) } else { stub::clean(|| add(&Port::stub())) };
                if due == 0 {
                    self.rust.add(*id as u64, vector).unwrap();
                }
                if !asked {
                    return;
                }
                t.adds.refused += (due != 0) as u64;
                t.adds.note(number == due, || tell(format!("port {number}, due {due}")));
                t.work.note(left_right(&self.work.floats, &[], due), || tell("work memory".into()));
            }
            Step::Find { target, k, search_k, spill } => {
                let mut ours = out(*k, SEARCH_TOLD);
                let number = self.port.find_nearest(&run.bases, &self.lent, &mut self.work, target, &mut ours, g, *k, *search_k, *spill);
                let (due, theirs) = if !target.iter().all(|x| x.is_finite()) {
                    (5, None)
                } else if !run.projects(target) {
                    (7, None)
                } else {
                    match self.rust.find(target, *k, *search_k, *spill) {
                        Ok(list) => (0, Some(list)),
                        Err(_) => (8, None),
                    }
                };
                let same = match &theirs {
                    // What is told beyond is how many were dropped. Each of n sets goes into n layers: nothing can fall off.
                    Some(list) => holds(&ours, list) && ours.told[2..].iter().all(|x| *x == 0),
                    None => untouched(&ours),
                };
                t.finds.refused += (due != 0) as u64;
                t.finds.note(number == due && same, || {
                    let theirs = theirs.map(|l| list_shown(&l)).unwrap_or_default();
                    tell(format!("port {number} {}, due {due} {theirs}", shown(&ours)))
                });
                let w = &self.work;
                t.work.note(left_right(&w.floats, &[&w.layers, &w.set], due), || tell("work memory".into()));
            }
            Step::Scan { target, k } => {
                let mut ours = out(*k, 2);
                let number = self.port.full_table_scan(&self.lent, target, &mut ours, g, *k);
                let finite = target.iter().all(|x| x.is_finite());
                let theirs = if finite { Some(self.rust.scan(target, *k).unwrap()) } else { None };
                let due = if finite { 0 } else { 5 };
                let same = match &theirs {
                    Some(list) => holds(&ours, list),
                    None => untouched(&ours),
                };
                t.scans.refused += (due != 0) as u64;
                t.scans.note(number == due && same, || {
                    let theirs = theirs.map(|l| list_shown(&l)).unwrap_or_default();
                    tell(format!("port {number} {}, due {due} {theirs}", shown(&ours)))
                });
            }
            Step::Memory => t.memory.note(held(&self.lent, self.rust.as_ref(), g), || tell("the memories differ".into())),
        }
    }
}

fn play(port: &Port, run: &Run, t: &mut Tallies) {
    let mut player = Player::new(port, run);
    if port.piped() {
        let additions = run.steps.iter().filter(|s| matches!(s, Step::Add { .. })).count();
        player.every = additions.div_ceil(PIPED_ADDITIONS).max(1);
    }
    for (at, step) in run.steps.iter().enumerate() {
        player.step(at, step, t);
    }
}

// ---------------------------------------------------------------- drawn runs

fn basis(draw: &mut Draw, d: usize, style: u64) -> Vec<f32> {
    let unit = |scale: f32| (0..d * d).map(|i| if i / d == i % d { scale } else { 0.0 }).collect::<Vec<f32>>();
    match style {
        0..=3 => {
            let entries = inputs::vector(draw, d * d, if style == 0 { 2 } else { 3 });
            let rounds = 1 + draw.below(2) as usize;
            if calls::orthonormalizes(d, rounds, &entries) {
                calls::orthonormalize(d, rounds, &entries)
            } else {
                entries
            }
        }
        4 => unit(1.0),
        // Used as drawn: ties between rows and zero rows.
        5 => inputs::vector(draw, d * d, 0),
        6 => inputs::vector(draw, d * d, 1),
        7 => unit(-1.0),
        // Projections of any size: some additions and searches are refused.
        8 => inputs::vector(draw, d * d, 7),
        _ => vec![0.0; d * d],
    }
}

/// A spill, among them the ends of its range and what is beyond.
fn spill(draw: &mut Draw, d: usize) -> usize {
    match draw.below(9) {
        0 | 1 => 0,
        2 => 1,
        3 => d - 1,
        4 => d,
        5 => pick(draw, &[d + 1, 4 * d, 1 << 32, usize::MAX]),
        _ => draw.below(d as u64) as usize,
    }
}

fn search_k(draw: &mut Draw, held: usize) -> usize {
    match draw.below(8) {
        0 => 0,
        1 => 1,
        2 | 3 => draw.below(6) as usize,
        4 | 5 => draw.below(held as u64 + 3) as usize,
        6 => draw.below(held as u64 / 4 + 2) as usize,
        _ => pick(draw, &[held, held + 1, 65536, 65537, 1 << 32, usize::MAX]),
    }
}

fn k(draw: &mut Draw) -> usize {
    match draw.below(8) {
        0 => 0,
        1 => 1,
        2 => 256,
        3 => draw.below(257) as usize,
        _ => 2 + draw.below(14) as usize,
    }
}

struct Plan {
    name: String,
    g: Geometry,
    /// The style of each basis, or anything.
    basis: Option<u64>,
    batches: Vec<usize>,
    finds: usize,
    scans: usize,
    /// Ids come in a scrambled order, each once, and only then again.
    each_once: bool,
}

fn planned(p: Plan, mut draw: Draw) -> Run {
    let Geometry { d, n, cap, .. } = p.g;
    let draw = &mut draw;
    let mut bases = Vec::new();
    // Bases that overflow are rare enough not to refuse everything.
    let hostile = draw.below(12) == 0;
    for _ in 0..n {
        let style = p.basis.unwrap_or_else(|| if hostile { draw.below(10) } else { draw.below(8) });
        bases.extend(basis(draw, d, style));
    }
    let mut steps = Vec::new();
    let mut seen: Vec<Vec<f32>> = Vec::new();
    let style = draw.below(4);
    let near = draw.below(3) == 0;
    let vector = |draw: &mut Draw, seen: &[Vec<f32>]| -> Vec<f32> {
        match draw.below(8) {
            0 if !seen.is_empty() => seen[draw.below(seen.len() as u64) as usize].clone(),
            1 if !seen.is_empty() => {
                let scale = pick(draw, &[0.5, -1.0, 2.0, 1e-10, 1e10]);
                seen[draw.below(seen.len() as u64) as usize].iter().map(|x| x * scale).collect()
            }
            2 => {
                let style = inputs::usual_style(draw);
                inputs::vector(draw, d, style)
            }
            _ => inputs::vector(draw, d, style),
        }
    };
    let mut added = 0;
    for batch in p.batches {
        for _ in 0..batch {
            let id = if p.each_once {
                // An odd step goes round the whole range.
                added * 40503 % cap
            } else if near {
                pick(draw, &[0, 1, 2, 62, 63, 64 % cap, cap - 1])
            } else {
                draw.below(cap as u64) as usize
            };
            let v = vector(draw, &seen);
            if seen.len() < 12 {
                seen.push(v.clone());
            } else if draw.below(5) == 0 {
                seen[draw.below(12) as usize] = v.clone();
            }
            steps.push(Step::Add { id, vector: v });
            added += 1;
        }
        for _ in 0..p.finds {
            let target = vector(draw, &seen);
            steps.push(Step::Find { target, k: k(draw), search_k: search_k(draw, added.min(cap)), spill: spill(draw, d) });
        }
        for _ in 0..p.scans {
            let target = vector(draw, &seen);
            steps.push(Step::Scan { target, k: k(draw) });
        }
        steps.push(Step::Memory);
    }
    Run { name: p.name, g: p.g, bases, steps }
}

/// A geometry of modest cost.
fn geometry(draw: &mut Draw, i: u64) -> Geometry {
    let d = match i % 8 {
        0..=3 => 1 + draw.below(8),
        4 => 9 + draw.below(8),
        5 => 16 + draw.below(20),
        6 => 32 + draw.below(33),
        _ => 65 + draw.below(120),
    } as usize;
    let n = match draw.below(6) {
        0 => 1,
        1 => 2,
        2 => 3,
        3 => 1 + draw.below(8),
        4 => 32,
        _ => 1 + draw.below(32),
    } as usize;
    let n = if d > 40 { 1 + n % 3 } else { n };
    let cap = if draw.below(4) == 0 { 64 * (1 + draw.below(64)) } else { 64 * (1 + draw.below(8)) } as usize;
    let cap = if d > 64 { cap.min(512) } else { cap };
    Geometry { d, n, cap, mode: draw.below(2) as usize }
}

fn drawn(ask: Ask, i: u64) -> Run {
    let mut draw = ask.draw(6, i);
    let g = geometry(&mut draw, i);
    let most = if g.d > 64 { 30 } else { 80 };
    let batches = vec![draw.below(3) as usize, draw.below(20) as usize, draw.below(most) as usize];
    planned(Plan { name: format!("drawn-{i}"), g, basis: None, batches, finds: 8, scans: 2, each_once: draw.below(3) == 0 }, draw)
}

/// The ends of the ranges: d 1,024, capacity 65,536, 32 bases.
fn large(ask: Ask, i: usize) -> Option<Run> {
    let plan = |name: &str, d, n, cap, mode, basis, batches: &[usize], finds, scans| {
        let each_once = batches.iter().sum::<usize>() > 1000;
        Plan { name: name.into(), g: Geometry { d, n, cap, mode }, basis, batches: batches.to_vec(), finds, scans, each_once }
    };
    let p = match i {
        0 => plan("d1024-mode0", 1024, 2, 128, 0, Some(5), &[10, 30], 6, 2),
        1 => plan("d1024-mode1", 1024, 3, 64, 1, Some(6), &[10, 30], 6, 2),
        2 => plan("c65536-mode0", 4, 3, 65536, 0, Some(3), &[3000, 65000], 12, 3),
        3 => plan("c65536-mode1", 3, 4, 65536, 1, Some(3), &[66000], 12, 3),
        4 => plan("c65536-wide", 24, 8, 65536, 1, Some(3), &[8000], 8, 2),
        5 => plan("n32", 9, 32, 1024, 0, Some(3), &[900], 20, 2),
        6 => plan("d1024-c65536", 1024, 1, 65536, 1, Some(5), &[40], 5, 2),
        7 => plan("d1024-n32", 1024, 32, 64, 0, Some(5), &[4], 3, 1),
        _ => return None,
    };
    Some(planned(p, ask.draw(7, i as u64)))
}

/// Every three additions out of two ids and these vectors, then every question.
fn small(ask: Ask) -> Vec<Run> {
    let vectors: [&[f32]; 6] = [&[1.0, 0.0], &[-1.0, 0.0], &[0.0, 2.0], &[1.0, 1.0], &[-1.0, 1.0], &[0.0, -3.0]];
    let bases: [&[f32]; 3] = [&[1.0, 0.0, 0.0, 1.0], &[0.0, 0.0, 0.0, 0.0], &[1.0, 0.0, 0.0, 1.0, 0.0, -1.0, -1.0, 0.0]];
    let mut runs = Vec::new();
    for code in (0..12usize.pow(3)).step_by(if ask.short { 37 } else { 1 }) {
        for (b, bases) in bases.iter().enumerate() {
            let g = Geometry { d: 2, n: bases.len() / 4, cap: 64, mode: code % 2 };
            let mut steps = Vec::new();
            for i in 0..3 {
                let c = code / 12usize.pow(i) % 12;
                steps.push(Step::Add { id: c % 2 * 63, vector: vectors[c / 2].to_vec() });
            }
            let targets: [&[f32]; 2] = [&[1.0, 0.0], &[-0.5, 0.5]];
            for target in targets {
                for k in 0..3 {
                    for search_k in 0..4 {
                        for spill in 0..3 {
                            steps.push(Step::Find { target: target.to_vec(), k, search_k, spill });
                        }
                    }
                    steps.push(Step::Scan { target: target.to_vec(), k });
                }
            }
            steps.push(Step::Memory);
            runs.push(Run { name: format!("small-{b}-{code}"), g, bases: bases.to_vec(), steps });
        }
    }
    runs
}

pub fn index(port: &Port, ask: Ask) -> Vec<Tally> {
    let mut t = Tallies::new("index, every small one");
    for run in small(ask) {
        play(port, &run, &mut t);
    }
    let mut all = t.all();
    let mut t = Tallies::new("index, drawn");
    for i in 0..ask.amount(400) {
        play(port, &drawn(ask, i), &mut t);
    }
    all.extend(t.all());
    if !ask.short {
        let mut t = Tallies::new("index, large");
        for run in (0..).map_while(|i| large(ask, i)) {
            play(port, &run, &mut t);
        }
        all.extend(t.all());
    }
    all
}

/// The run of this name, so that it can be asked again.
pub fn by_name(ask: Ask, name: &str) -> Option<Run> {
    if let Some(i) = name.strip_prefix("drawn-") {
        return Some(drawn(ask, i.parse().ok()?));
    }
    if let Some(i) = name.strip_prefix("merge-") {
        return Some(merge_run(ask, i.parse().ok()?));
    }
    (0..).map_while(|i| large(ask, i)).chain(small(ask)).find(|r| r.name == name)
}

// ---------------------------------------------------------------- merging

fn merge_run(ask: Ask, i: u64) -> Run {
    let mut draw = ask.draw(8, i);
    let g = geometry(&mut draw, i);
    let most = if g.d > 64 { 20 } else { 80 };
    let batches = vec![2 + draw.below(most) as usize];
    planned(Plan { name: format!("merge-{i}"), g, basis: None, batches, finds: 6, scans: 2, each_once: false }, draw)
}

/// The additions are dealt to two to four indexes by id; merged, these must hold what one index holds that was given all of them, and what
/// the Rust holds that was given all of them. Then an index that shares an id is refused.
pub fn merge(port: &Port, ask: Ask) -> Vec<Tally> {
    let mut replayed = Tally::new("merge: the bytes after it, against adding all to one");
    let mut rust_held = Tally::new("merge: the bytes after it, against the Rust given all additions");
    let mut other_kept = Tally::new("merge: the second index afterwards");
    let mut shared = Tally::new("merge: a shared id is refused 11 and nothing changes");
    let mut asked = Tallies::new("merge, then asked");
    for i in 0..ask.amount(300) {
        let run = merge_run(ask, i);
        let g = run.g;
        let mut draw = ask.draw(9, i);
        let parts = 2 + draw.below(3) as usize;
        // By ranges, or mixed.
        let mixed = draw.below(3) > 0;
        let part = |id: usize| if mixed { id * 7 % 13 % parts } else { id * parts / g.cap };
        let mut dealt: Vec<Lent> = (0..parts).map(|_| lent(port, g)).collect();
        for l in &mut dealt {
            port.new_index(l, g);
        }
        let mut whole = Player::new(port, &run);
        let mut work = vec![0.0; g.d];
        let mut t = Tallies::new("");
        for (at, step) in run.steps.iter().enumerate() {
            if let Step::Add { id, vector } = step {
                whole.step(at, step, &mut t);
                port.add_vector(&run.bases, &mut dealt[part(*id)], &mut work, vector, g, *id);
            }
        }
        let mut joined = dealt[0].clone();
        let mut numbers = Vec::new();
        for other in &dealt[1..] {
            let before = other.clone();
            numbers.push(port.merge(&mut joined, other, g));
            other_kept.note(*other == before, || format!("run {}", run.name));
        }
        let accepted = numbers.iter().all(|x| *x == 0);
        replayed.note(accepted && joined == whole.lent, || format!("run {}, {parts} parts: port {numbers:?}", run.name));
        rust_held.note(accepted && held(&joined, whole.rust.as_ref(), g), || format!("run {}, {parts} parts: port {numbers:?}", run.name));
        // One more with an id that is there already.
        if joined.marks.iter().any(|m| *m != 0) {
            let before = joined.clone();
            let other = dealt.iter().find(|l| l.marks.iter().any(|m| *m != 0)).unwrap();
            let number = port.merge(&mut joined, other, g);
            shared.refused += 1;
            shared.note(number == 11 && joined == before, || format!("run {}: port {number}", run.name));
            joined = before;
        }
        whole.lent = joined;
        for (at, step) in run.steps.iter().enumerate().filter(|(_, s)| !matches!(s, Step::Add { .. })) {
            whole.step(at, step, &mut asked);
        }
    }
    vec![replayed, rust_held, other_kept, shared, asked.finds, asked.scans]
}
