//! Times the port beside two builds of the published Rust, in one process, and prints Markdown. `run` builds and starts it.

#[path = "../../oracle/diff/src/port.rs"]
mod port;
#[allow(dead_code)]
#[path = "../../oracle/diff/src/stub.rs"]
mod stub;

mod with_plain {
    use plain as bbqvec;
    include!("rust.rs");
}
mod with_untouched {
    use untouched as bbqvec;
    include!("rust.rs");
}

use port::{Geometry, Lent, Out, Port, Work};
use std::time::{Duration, Instant};

/// A list, for the comparison before anything is timed.
#[derive(PartialEq, Debug)]
pub struct Found {
    ids: Vec<u32>,
    checked: usize,
}

/// An index that is timed.
pub trait Contender {
    fn add(&mut self, id: u64, v: &Vec<f32>);
    fn find(&mut self, target: &Vec<f32>, k: usize, search_k: usize, spill: usize);
    fn scan(&mut self, target: &Vec<f32>, k: usize);
    fn found(&mut self, target: &Vec<f32>, k: usize, search_k: usize, spill: usize) -> Found;
    fn scanned(&mut self, target: &Vec<f32>, k: usize) -> Found;
}

/// An index of the Rust's that is being filled.
pub trait Filler {
    fn put(&mut self, id: u64, v: &Vec<f32>);
    /// The sets of each basis and face are asked for.
    fn finish(self: Box<Self>, d: usize, bases: &[f32], sets: &mut dyn FnMut(usize, i32) -> Vec<u64>) -> Box<dyn Contender>;
}

// ---------------------------------------------------------------- the clock and the heap

#[repr(C)]
#[derive(Default)]
struct Timespec {
    seconds: i64,
    nanos: i64,
}

/// glibc's account of its heap.
#[repr(C)]
#[derive(Default)]
struct Mallinfo2 {
    arena: usize,
    ordblks: usize,
    smblks: usize,
    hblks: usize,
    hblkhd: usize,
    usmblks: usize,
    fsmblks: usize,
    uordblks: usize,
    fordblks: usize,
    keepcost: usize,
}

extern "C" {
    fn clock_gettime(clock: i32, time: *mut Timespec) -> i32;
    fn mallinfo2() -> Mallinfo2;
}

/// Seconds of processor time of this thread: other work on the machine takes less part in it than in the time of day.
fn now() -> f64 {
    const THREAD: i32 = 3;
    let mut t = Timespec::default();
    unsafe { clock_gettime(THREAD, &mut t) };
    t.seconds as f64 + t.nanos as f64 / 1e9
}

fn heap() -> usize {
    let m = unsafe { mallinfo2() };
    m.uordblks + m.hblkhd
}

// ---------------------------------------------------------------- data

/// Marsaglia's xorshift, 64 bits.
struct Draw(u64);

impl Draw {
    fn new(seed: u64) -> Self {
        let mut d = Self(seed.wrapping_mul(0x9e3779b97f4a7c15) | 1);
        (0..4).for_each(|_| {
            d.next();
        });
        d
    }
    fn next(&mut self) -> u64 {
        self.0 ^= self.0 << 13;
        self.0 ^= self.0 >> 7;
        self.0 ^= self.0 << 17;
        self.0
    }
    fn below(&mut self, n: usize) -> usize {
        ((self.next() >> 33) as usize) % n
    }
    fn vector(&mut self, d: usize) -> Vec<f32> {
        (0..d).map(|_| (self.next() >> 40) as f32 / (1 << 23) as f32 - 1.0).collect()
    }
}

fn stored(id: usize, d: usize) -> Vec<f32> {
    Draw::new(1_000_003 + id as u64).vector(d)
}

// ---------------------------------------------------------------- the port as a contender

struct Ported<'a> {
    port: &'a Port,
    g: Geometry,
    bases: Vec<f32>,
    index: Lent,
    work: Work,
    out: Out,
}

impl Ported<'_> {
    fn new(port: &Port, g: Geometry, k: usize) -> Ported<'_> {
        let s = port.sizes(g);
        let mut draw = Draw::new(7);
        let mut bases = Vec::with_capacity(s.bases);
        for _ in 0..g.n * g.d {
            let mut row = draw.vector(g.d);
            assert_eq!(port.normalize(&mut row), 0);
            bases.extend(row);
        }
        let mut index = Lent { faces: vec![0; s.faces], marks: vec![0; s.marks], vectors: vec![0; s.vectors] };
        assert_eq!(port.new_index(&mut index, g), 0);
        let work = Work { floats: vec![0.0; s.work], layers: vec![0; s.layers], set: vec![0; s.set] };
        let out = Out { ids: vec![0; k], scores: vec![0.0; k], told: vec![0; 3] };
        Ported { port, g, bases, index, work, out }
    }

    fn lent_bytes(&self) -> usize {
        let (i, w) = (&self.index, &self.work);
        4 * self.bases.len() + 8 * i.faces.len() + 8 * i.marks.len() + i.vectors.len() + 4 * w.floats.len() + 8 * (w.layers.len() + w.set.len())
    }

    /// An addition that takes its faces out of the draw instead of projecting: the same memory as if the vector had these faces.
    fn place(&mut self, id: usize, v: &[f32], draw: &mut Draw) {
        let g = self.g;
        let w = g.cap / 64;
        for b in 0..g.n {
            self.index.faces[(b * 2 * g.d + draw.below(2 * g.d)) * w + id / 64] |= 1 << (id % 64);
        }
        self.index.marks[id / 64] |= 1 << (id % 64);
        let mut v = v.to_vec();
        assert_eq!(self.port.normalize(&mut v), 0);
        let size = if g.mode == 0 { 4 } else { 2 };
        for (to, x) in self.index.vectors[id * size * g.d..(id + 1) * size * g.d].chunks_mut(size).zip(&v) {
            if g.mode == 0 {
                to.copy_from_slice(&x.to_le_bytes());
            } else {
                to.copy_from_slice(&self.port.lower(x.to_bits()).to_le_bytes());
            }
        }
    }

    fn face_set(&self, basis: usize, face: i32) -> Vec<u64> {
        let (d, w) = (self.g.d, self.g.cap / 64);
        let slot = if face > 0 { face as usize - 1 } else { d + face.unsigned_abs() as usize - 1 };
        let at = (basis * 2 * d + slot) * w;
        (0..self.g.cap).filter(|id| self.index.faces[at + id / 64] >> (id % 64) & 1 == 1).map(|id| id as u64).collect()
    }

    fn list(&self) -> Found {
        Found { ids: self.out.ids[..self.out.told[0] as usize].to_vec(), checked: self.out.told[1] as usize }
    }
}

impl Contender for Ported<'_> {
    fn add(&mut self, id: u64, v: &Vec<f32>) {
        assert_eq!(self.port.add_vector(&self.bases, &mut self.index, &mut self.work.floats, v, self.g, id as usize), 0);
    }
    fn find(&mut self, target: &Vec<f32>, k: usize, search_k: usize, spill: usize) {
        self.out.told.resize(3, 0);
        let number = self.port.find_nearest(&self.bases, &self.index, &mut self.work, target, &mut self.out, self.g, k, search_k, spill);
        assert_eq!(number, 0);
    }
    fn scan(&mut self, target: &Vec<f32>, k: usize) {
        self.out.told.resize(2, 0);
        assert_eq!(self.port.full_table_scan(&self.index, target, &mut self.out, self.g, k), 0);
    }
    fn found(&mut self, target: &Vec<f32>, k: usize, search_k: usize, spill: usize) -> Found {
        self.find(target, k, search_k, spill);
        self.list()
    }
    fn scanned(&mut self, target: &Vec<f32>, k: usize) -> Found {
        self.scan(target, k);
        self.list()
    }
}

// ---------------------------------------------------------------- a filled set of contenders

const K: usize = 10;
const SEARCH_K: usize = 50;
const TARGETS: usize = 16;
/// Up to so many products an index is filled by adding; beyond, the faces are drawn.
const PROJECTED: usize = 9_000_000_000;

fn spill(g: Geometry) -> usize {
    (g.d - 1).min(7)
}

/// The port, then the Rust: plain and untouched over BitVec, plain and untouched over RoaringBitmap (if wanted).
struct Ring<'a> {
    ported: Ported<'a>,
    rust: Vec<Box<dyn Contender>>,
    targets: Vec<Vec<f32>>,
    checked: f64,
}

fn ring(port: &Port, g: Geometry, roaring: bool) -> Ring<'_> {
    let Geometry { d, n, cap, mode } = g;
    let mut ported = Ported::new(port, g, K);
    let mut fillers = vec![with_plain::filling(d, n, mode, false), with_untouched::filling(d, n, mode, false)];
    if roaring {
        fillers.extend([with_plain::filling(d, n, mode, true), with_untouched::filling(d, n, mode, true)]);
    }
    // Adding by projection costs n·d·d a vector. Where that takes too long the faces are drawn.
    let projected = n * d * d * cap <= PROJECTED;
    let mut draw = Draw::new(11);
    for id in 0..cap {
        let v = stored(id, d);
        if projected {
            ported.add(id as u64, &v);
        } else {
            ported.place(id, &v, &mut draw);
        }
        for f in &mut fillers {
            f.put(id as u64, &v);
        }
    }
    let rust = fillers.into_iter().map(|f| f.finish(d, &ported.bases, &mut |b, face| ported.face_set(b, face))).collect();
    let mut draw = Draw::new(13);
    let targets = (0..TARGETS).map(|_| draw.vector(d)).collect();
    let mut ring = Ring { ported, rust, targets, checked: 0.0 };
    ring.compare(g);
    ring
}

impl Ring<'_> {
    /// The same lists from the port and the plain Rust, or there is nothing to time.
    fn compare(&mut self, g: Geometry) {
        let mut checked = 0;
        for (i, t) in self.targets.iter().enumerate() {
            let ours = self.ported.found(t, K, SEARCH_K, spill(g));
            checked += ours.checked;
            for (r, rust) in self.rust.iter_mut().enumerate().filter(|(r, _)| r % 2 == 0) {
                assert_eq!(ours, rust.found(t, K, SEARCH_K, spill(g)), "search, {g:?}, target {i}, {r}");
            }
            if i < 2 {
                assert_eq!(self.ported.scanned(t, K), self.rust[0].scanned(t, K), "scan, {g:?}, target {i}");
            }
        }
        self.checked = checked as f64 / self.targets.len() as f64;
    }

    /// Medians of one kind of call, for the port and the Rust's contenders of these numbers.
    fn times(&mut self, who: &[usize], budget: f64, call: &dyn Fn(&mut dyn Contender, usize, &[Vec<f32>])) -> Vec<f64> {
        let mut all: Vec<&mut dyn Contender> = vec![&mut self.ported];
        all.extend(self.rust.iter_mut().enumerate().filter(|(i, _)| who.contains(i)).map(|(_, r)| r.as_mut() as &mut dyn Contender));
        medians(&mut all, budget, &mut |c, i| call(c, i, &self.targets))
    }
}

/// Processor seconds a call: the median over interleaved samples. A sample is long enough for the clock, and every contender's samples make
/// the same calls.
fn medians(all: &mut [&mut dyn Contender], budget: f64, call: &mut dyn FnMut(&mut dyn Contender, usize)) -> Vec<f64> {
    let mut sample = |c: &mut dyn Contender, first: usize, count: usize| {
        let start = now();
        for i in 0..count {
            call(c, first + i);
        }
        (now() - start) / count as f64
    };
    let first: Vec<f64> = all.iter_mut().map(|c| sample(*c, 0, 1)).collect();
    let quickest = first.iter().cloned().fold(f64::MAX, f64::min).max(1e-8);
    let count = ((1e-3 / quickest).ceil() as usize).clamp(1, 20_000);
    let round: f64 = first.iter().sum::<f64>() * count as f64;
    let samples = ((budget / round) as usize).clamp(5, 41) | 1;
    let mut taken = vec![Vec::with_capacity(samples); all.len()];
    for s in 0..samples {
        for turn in 0..all.len() {
            // Each goes first in turn.
            let who = (turn + s) % all.len();
            taken[who].push(sample(all[who], s * count, count));
        }
    }
    taken.into_iter().map(median).collect()
}

fn median(mut xs: Vec<f64>) -> f64 {
    xs.sort_by(f64::total_cmp);
    xs[xs.len() / 2]
}

fn find(g: Geometry) -> impl Fn(&mut dyn Contender, usize, &[Vec<f32>]) {
    move |c, i, targets| c.find(&targets[i % targets.len()], K, SEARCH_K, spill(g))
}

// ---------------------------------------------------------------- tables

fn time(seconds: f64) -> String {
    match seconds {
        s if s < 1e-3 => format!("{:.2} µs", s * 1e6),
        s if s < 1.0 => format!("{:.2} ms", s * 1e3),
        s => format!("{s:.2} s"),
    }
}

fn bytes(n: usize) -> String {
    match n as f64 {
        n if n < 1e6 => format!("{:.1} kB", n / 1e3),
        n => format!("{:.1} MB", n / 1e6),
    }
}

fn grouped(n: usize) -> String {
    if n < 1000 {
        n.to_string()
    } else {
        format!("{},{:03}", n / 1000, n % 1000)
    }
}

fn shape(g: Geometry) -> String {
    format!("{}, {}, {}", grouped(g.d), g.n, grouped(g.cap))
}

fn row(label: &str, t: &[f64]) {
    println!("| {label} | {} | {} | {} | {:.2} | {:.2} |", time(t[0]), time(t[1]), time(t[2]), t[0] / t[1], t[0] / t[2]);
}

fn head(first: &str) {
    println!("| {first} | port | Rust, plain dot | Rust, SIMD | port / plain | port / SIMD |");
    println!("|{}", "---|".repeat(5 + first.matches('|').count() + 1));
}

/// What is kept for the tables after the first.
struct Beside {
    search: Vec<(String, Vec<f64>, f64)>,
    merge: Vec<(String, f64, usize)>,
    memory: Vec<(String, usize, Vec<usize>)>,
    slower: Vec<String>,
}

fn one_geometry(port: &Port, g: Geometry, beside: &mut Beside) {
    let label = format!("{} | {}", shape(g), g.mode);
    let mut r = ring(port, g, true);
    let cap = g.cap;
    // Ids that are there already, with their own vectors: nothing grows. The vectors are made before.
    let again: Vec<(u64, Vec<f32>)> = (0..64).map(|i| i * 40503 % cap).map(|id| (id as u64, stored(id, g.d))).collect();
    let add = r.times(&[0, 1], 0.8, &|c, i, _| {
        let (id, v) = &again[i % again.len()];
        c.add(*id, v)
    });
    row(&format!("{label} | add"), &add);
    let search = r.times(&[0, 1], 0.8, &find(g));
    row(&format!("{label} | search"), &search);
    let scan = r.times(&[0, 1], 0.8, &|c, i, targets| c.scan(&targets[i % targets.len()], K));
    row(&format!("{label} | scan"), &scan);
    for (what, t) in [("add", &add), ("search", &search), ("scan", &scan)] {
        if t[0] > t[1] {
            beside.slower.push(format!("{what} at ({}), mode {}: {:.2} times the plain Rust's time", shape(g), g.mode, t[0] / t[1]));
        }
    }
    let roaring = r.times(&[2, 3], 0.6, &find(g));
    if roaring[0] > roaring[1] {
        beside.slower.push(format!(
            "search at ({}), mode {}, over RoaringBitmap: {:.2} times the plain Rust's time",
            shape(g),
            g.mode,
            roaring[0] / roaring[1]
        ));
    }
    beside.search.push((label.clone(), roaring, r.checked));
    // Every second word's ids stay, the others come from a second index.
    let mut second = r.ported.index.clone();
    second.marks.iter_mut().step_by(2).for_each(|m| *m = 0);
    r.ported.index.marks.iter_mut().skip(1).step_by(2).for_each(|m| *m = 0);
    let marks = r.ported.index.marks.clone();
    let mut taken = Vec::new();
    let start = now();
    while taken.len() < 5 || taken.len() < 200 && now() - start < 0.5 {
        r.ported.index.marks.copy_from_slice(&marks);
        let begun = now();
        let number = port.merge(&mut r.ported.index, &second, g);
        taken.push(now() - begun);
        assert_eq!(number, 0);
    }
    beside.merge.push((label.clone(), median(taken), 8 * second.faces.len() + second.vectors.len() / 2));
    drop(second);
    let lent = r.ported.lent_bytes();
    let heaps = r
        .rust
        .drain(..)
        .map(|c| {
            let before = heap();
            drop(c);
            before - heap()
        })
        .collect();
    beside.memory.push((label, lent, heaps));
}

fn growth(port: &Port, geometries: &[Geometry], label: impl Fn(Geometry) -> String) {
    for g in geometries {
        let mut r = ring(port, *g, false);
        let t = r.times(&[0, 1], 0.5, &find(*g));
        row(&format!("{} | {:.0}", label(*g), r.checked), &t);
    }
}

fn main() {
    // The published compute_similarity makes an error for every candidate; with backtraces it would be timed making those.
    std::env::set_var("RUST_LIB_BACKTRACE", "0");
    let words: Vec<String> = std::env::args().skip(1).collect();
    let stubbed = words.iter().any(|w| w == "--stub");
    let quick = words.iter().any(|w| w == "--quick");
    let Some(port) = (if stubbed { Some(Port::stub()) } else { Port::linked() }) else {
        eprintln!("bench: built without the port: set PORT to its object file, or try --stub");
        std::process::exit(2)
    };
    let begun = Instant::now();
    let shapes: &[(usize, usize, usize)] =
        if quick { &[(8, 4, 256), (64, 4, 1024)] } else { &[(8, 4, 256), (32, 8, 1024), (128, 8, 4096), (256, 8, 16384), (1024, 8, 65536)] };
    let mut beside = Beside { search: vec![], merge: vec![], memory: vec![], slower: vec![] };
    println!("## Calls");
    println!();
    head("d, n, C | mode | call");
    for (d, n, cap) in shapes {
        for mode in [0, 1] {
            one_geometry(&port, Geometry { d: *d, n: *n, cap: *cap, mode }, &mut beside);
        }
    }
    println!();
    println!("Every index is full: C vectors, components drawn evenly from -1 to 1, bases of drawn and normalised rows. Add overwrites an id with its own vector. Search: k {K}, search_k {SEARCH_K}, spill 7, {TARGETS} targets in turn; scan: k {K}. Both Rust builds hold their sets as BitVec. Before the timing the port's lists are compared with the plain Rust's: they were the same.");
    println!("Where filling by projection would take more than 9·10^9 products (d 1,024, here and below) the faces of the stored vectors are drawn too; all contenders hold the same ones.");
    println!();
    if beside.slower.is_empty() {
        println!("Nowhere is the port slower than the plain Rust.");
    } else {
        println!("Slower than the plain Rust:");
        println!();
        for s in &beside.slower {
            println!("- {s}");
        }
    }
    println!();
    println!("## Search with the Rust's sets as RoaringBitmap");
    println!();
    println!("| d, n, C | mode | ids compared | port | Rust, plain dot | Rust, SIMD | port / plain | port / SIMD |");
    println!("|---|---|---|---|---|---|---|---|");
    for (label, t, checked) in &beside.search {
        row(&format!("{label} | {checked:.0}"), t);
    }
    println!();
    println!("## Merge (the Rust has none)");
    println!();
    println!("| d, n, C | mode | time | face sets read and stored bytes copied | a second |");
    println!("|---|---|---|---|---|");
    for (label, t, moved) in &beside.merge {
        println!("| {label} | {} | {} | {:.1} GB |", time(*t), bytes(*moved), *moved as f64 / t / 1e9);
    }
    println!();
    println!("Half of the ids come from the second index, whose face sets are those of all ids.");
    println!();
    println!("## Memory");
    println!();
    println!("| d, n, C | mode | lent to the port | the Rust's heap, BitVec | the Rust's heap, RoaringBitmap |");
    println!("|---|---|---|---|---|");
    for (label, lent, heaps) in &beside.memory {
        println!("| {label} | {} | {} | {} |", bytes(*lent), bytes(heaps[0]), bytes(heaps[2]));
    }
    println!();
    println!("Lent: bases, face sets, marks, stored vectors and work memory. Heap: what dropping the filled store gives back, by glibc's account (bases, vectors, sets and tables; not what a search takes for a while).");
    println!();
    println!("## Search as C grows (d 64, n 8, mode 0)");
    println!();
    head("C | ids compared");
    let caps: &[usize] = if quick { &[256, 1024] } else { &[256, 1024, 4096, 16384, 65536] };
    growth(&port, &caps.iter().map(|cap| Geometry { d: 64, n: 8, cap: *cap, mode: 0 }).collect::<Vec<_>>(), |g| grouped(g.cap));
    println!();
    println!("## Search as d grows (n 8, C 4,096, mode 0)");
    println!();
    head("d | ids compared");
    let ds: &[usize] = if quick { &[8, 32] } else { &[8, 32, 128, 512, 1024] };
    growth(&port, &ds.iter().map(|d| Geometry { d: *d, n: 8, cap: 4096, mode: 0 }).collect::<Vec<_>>(), |g| grouped(g.d));
    println!();
    let took: Duration = begun.elapsed();
    println!("The run took {:.0} seconds.", took.as_secs_f64());
}
