//! The exports once more, written in Rust from the paper's rules, plainly and slowly. It stands in for the port to test the driver: as it is
//! (no difference may be seen), and with one planted fault at a time (each must be seen). The word `refusals` also takes it as the second
//! opinion on calls that the published Rust has no answer to.

#![allow(clippy::missing_safety_doc)]

use crate::port::SEARCH_TOLD;
use std::slice::{from_raw_parts, from_raw_parts_mut};
use std::sync::atomic::{AtomicUsize, Ordering};

macro_rules! faults {
    ($($name:ident: $what:literal;)*) => {
        #[derive(Clone, Copy, PartialEq, Debug)]
        pub enum Fault {
            Nothing,
            $($name,)*
        }

        /// Every fault that can be planted, with what it does. The first five are the paper's plausible slips.
        pub const FAULTS: &[(Fault, &str)] = &[$((Fault::$name, $what),)*];
    };
}

faults! {
    FaceByValue: "the face is that of the greatest value";
    EqualDisplaces: "an equal score displaces the last entry of a full set";
    SpillSkipsZeros: "spilling skips zero entries";
    LowerCuts: "bf16 by cutting";
    LowestLayer: "the lowest layer that is large enough";

    NegativeFirst: "of equal absolute values the negative one is the face";
    LastIndex: "of equal entries the last one is the face";
    ZeroPositive: "a projection of zeros has the face +1";
    SpillUncut: "spill at d is held to d instead of d-1";
    SpillKeepsEntry: "the last picked entry isn't set to zero";
    RootCut: "a root is cut, not rounded";
    RootSubnormal: "the root of a subnormal is zero";
    RootNan: "the root of a NaN keeps its bits";
    LowerTiesAway: "bf16 rounds ties away from zero";
    LowerNan: "a lowered NaN isn't made quiet";
    WidenQuiets: "widening makes a signalling NaN quiet";
    DotBackwards: "dot adds from the last product on";
    DotFused: "dot fuses product and sum";
    DistanceNoRoot: "distance without the root";
    DistanceFused: "distance fuses product and sum";
    ReciprocalNorm: "normalising multiplies by the reciprocal of the norm";
    NormalizesInfinite: "normalising accepts an infinite norm";
    OrthoOnce: "orthonormalize doesn't normalise the later vector again";
    OrthoFused: "orthonormalize fuses product and difference";
    OrthoRounds: "orthonormalize does one round too few";
    CarryLost: "merging a set carries nothing on beyond the second layer";
    DroppedWrong: "the dropped count leaves out the last word";
    SetKept: "the merged set is left as it was";
    EqualIdIgnored: "an equal id doesn't end the feed";
    EqualIdFirst: "an equal id anywhere in the list ends the feed";
    CheckedKept: "checked counts only the entries kept";
    ListNotCut: "in a full list a new entry takes the place of the first smaller one";
    AddClears: "adding an id again clears its older face bits";
    AddRaw: "the vector is stored as given";
    AddProjectsNormalised: "the normalised vector is projected";
    AddLastFace: "the slot of face -d is that of face d";
    AddNoMark: "adding sets no mark for the last id of a word";
    FirstBasis: "search merges the first basis only";
    SearchNormalises: "search compares with the normalised target";
    SearchNoRefusal: "search falls back to the first layer instead of refusing 8";
    SearchFalling: "search feeds by falling id";
    SearchWorkLeft: "search leaves its layers as they were";
    AddWorkLeft: "add leaves its work memory as it was";
    SearchChecked: "checked is the number of present ids";
    PlacesBeyond: "a search zeroes the places beyond its list";
    ScanOneShort: "scan leaves out the last id";
    ScanBackwards: "scan reads the stored components backwards";
    MergeMarks: "merging forgets the marks";
    MergeFirstBasis: "merging joins the face sets of the first basis only";
    MergeAllVectors: "merging copies every slot, present or not";
    MergeShared: "merging accepts two indexes that share an id";
    MergeXor: "merging takes the exclusive or of face sets";
    NoRefusalLength: "a lent length that is too long is accepted";
    RefusalOrder: "add checks the id before the lengths";
    RefusedWrites: "a refused addition leaves its mark";
}

static PLANTED: AtomicUsize = AtomicUsize::new(0);

pub fn plant(fault: Fault) {
    PLANTED.store(fault as usize, Ordering::Relaxed);
}

/// Runs it without a fault.
#[allow(dead_code)]
pub fn clean<T>(run: impl FnOnce() -> T) -> T {
    let before = PLANTED.swap(0, Ordering::Relaxed);
    let answer = run();
    PLANTED.store(before, Ordering::Relaxed);
    answer
}

#[inline(always)]
fn is(fault: Fault) -> bool {
    PLANTED.load(Ordering::Relaxed) == fault as usize
}

use Fault::*;

/// A refusal, or a value.
type Answer<T> = Result<T, u32>;

fn number(answer: Answer<()>) -> u32 {
    answer.err().unwrap_or(0)
}

/// Refuses with this number unless it holds.
fn unless(number: u32, holds: bool) -> Answer<()> {
    if holds {
        Ok(())
    } else {
        Err(number)
    }
}

fn length(given: usize, wanted: usize) -> bool {
    given == wanted || is(NoRefusalLength) && given > wanted
}

// ---------------------------------------------------------------- numbers

/// The nearest root, by whole numbers: the bits' value is m·2^e with e even and m of 47 or 48 bits, so that the whole root has 24.
fn root(x: u32) -> u32 {
    let (field, part) = (x >> 23 & 0xff, (x & 0x7fffff) as u64);
    if x & 0x7fffffff == 0 || x == 0x7f800000 {
        return x;
    }
    if is(RootNan) && x & 0x7fffffff > 0x7f800000 {
        return x;
    }
    if field == 255 || x >> 31 == 1 {
        return 0x7fc00000;
    }
    if field == 0 && is(RootSubnormal) {
        return 0;
    }
    let (m, e) = if field == 0 { (part, -149) } else { (part | 0x800000, field as i32 - 150) };
    let mut shift = 47 - (64 - m.leading_zeros() as i32);
    if (e - shift) % 2 != 0 {
        shift += 1;
    }
    let (square, half) = (m << shift, (e - shift) / 2);
    let whole = square.isqrt();
    let rounded = whole + (square - whole * whole > whole && !is(RootCut)) as u64;
    (((half + 150) as u32) << 23) + (rounded - 0x800000) as u32
}

fn root_of(x: f32) -> f32 {
    f32::from_bits(root(x.to_bits()))
}

fn lower(x: u32) -> u16 {
    let upper = (x >> 16) as u16;
    if x & 0x7fffffff > 0x7f800000 {
        return if is(LowerNan) { upper } else { upper | 0x40 };
    }
    let rest = x & 0xffff;
    let up = rest > 0x8000 || rest == 0x8000 && (upper & 1 == 1 || is(LowerTiesAway));
    upper + (up && !is(LowerCuts)) as u16
}

fn widen(half: u16) -> u32 {
    let x = (half as u32) << 16;
    if is(WidenQuiets) && x & 0x7fffffff > 0x7f800000 {
        return x | 0x400000;
    }
    x
}

pub unsafe extern "C" fn bbq_sqrt(bits: u32) -> u32 {
    root(bits)
}

pub unsafe extern "C" fn bbq_lower(bits: u32) -> u16 {
    lower(bits)
}

pub unsafe extern "C" fn bbq_widen(half: u16) -> u32 {
    widen(half)
}

// ---------------------------------------------------------------- geometry

fn capacity_ok(cap: usize) -> bool {
    (64..=65536).contains(&cap) && cap % 64 == 0
}

#[derive(Clone, Copy)]
struct G {
    d: usize,
    n: usize,
    cap: usize,
    mode: usize,
}

impl G {
    fn ok(&self) -> bool {
        (1..=1024).contains(&self.d) && (1..=32).contains(&self.n) && capacity_ok(self.cap) && self.mode <= 1
    }
    fn w(&self) -> usize {
        self.cap / 64
    }
    fn component(&self) -> usize {
        if self.mode == 0 {
            4
        } else {
            2
        }
    }
    fn bases(&self) -> usize {
        self.n * self.d * self.d
    }
    fn faces(&self) -> usize {
        self.n * 2 * self.d * self.w()
    }
    fn vectors(&self) -> usize {
        self.cap * self.component() * self.d
    }
    /// Where the words of a face's set begin.
    fn set(&self, basis: usize, face: i32) -> usize {
        let slot = if face > 0 { face as usize - 1 } else { self.d + (-face) as usize - 1 };
        let slot = if is(AddLastFace) && slot == 2 * self.d - 1 { self.d - 1 } else { slot };
        (basis * 2 * self.d + slot) * self.w()
    }
}

macro_rules! sizes {
    ($($name:ident: $g:ident => $size:expr;)*) => {
        $(pub unsafe extern "C" fn $name(d: usize, n: usize, cap: usize, mode: usize) -> usize {
            let $g = G { d, n, cap, mode };
            if $g.ok() { $size } else { 0 }
        })*
    };
}

sizes! {
    bbq_bases_len: g => g.bases();
    bbq_faces_len: g => g.faces();
    bbq_marks_len: g => g.w();
    bbq_vectors_len: g => g.vectors();
    bbq_work_len: g => g.d;
    bbq_layers_len: g => g.n * g.w();
    bbq_set_len: g => g.w();
}

// ---------------------------------------------------------------- vectors

fn dot(a: &[f32], b: &[f32]) -> f32 {
    if is(DotBackwards) {
        return a.iter().zip(b).rev().fold(0.0, |sum, (x, y)| sum + x * y);
    }
    if is(DotFused) {
        return a.iter().zip(b).fold(0.0, |sum, (x, y)| x.mul_add(*y, sum));
    }
    a.iter().zip(b).fold(0.0, |sum, (x, y)| sum + x * y)
}

fn distance(a: &[f32], b: &[f32]) -> f32 {
    let sum = a.iter().zip(b).fold(0.0, |sum, (x, y)| if is(DistanceFused) { (x - y).mul_add(x - y, sum) } else { sum + (x - y) * (x - y) });
    if is(DistanceNoRoot) {
        return sum;
    }
    root_of(sum)
}

fn finite(v: &[f32]) -> bool {
    v.iter().all(|x| x.is_finite())
}

fn normalized(v: &[f32]) -> Answer<Vec<f32>> {
    unless(5, finite(v))?;
    let norm = root_of(dot(v, v));
    unless(6, (norm.is_finite() || is(NormalizesInfinite)) && norm != 0.0)?;
    let out: Vec<f32> = v.iter().map(|x| if is(ReciprocalNorm) { x * (1.0 / norm) } else { x / norm }).collect();
    unless(6, finite(&out))?;
    Ok(out)
}

fn orthonormalized(basis: &[f32], d: usize, rounds: usize) -> Answer<Vec<f32>> {
    let mut rows: Vec<Vec<f32>> = basis.chunks(d).map(|r| r.to_vec()).collect();
    for _ in 0..rounds - (is(OrthoRounds) && rounds > 1) as usize {
        for i in 0..d {
            rows[i] = normalized(&rows[i]).map_err(|_| 6u32)?;
            for j in i + 1..d {
                let t = dot(&rows[i], &rows[j]);
                let row = rows[i].clone();
                for (x, y) in rows[j].iter_mut().zip(&row) {
                    *x = if is(OrthoFused) { (-t).mul_add(*y, *x) } else { *x - t * *y };
                }
                if !is(OrthoOnce) {
                    rows[j] = normalized(&rows[j]).map_err(|_| 6u32)?;
                }
            }
        }
    }
    Ok(rows.concat())
}

pub unsafe extern "C" fn bbq_dot_product(a: *const f32, a_len: usize, b: *const f32, b_len: usize, out: *mut f32, out_len: usize) -> u32 {
    let (a, b, out) = (from_raw_parts(a, a_len), from_raw_parts(b, b_len), from_raw_parts_mut(out, out_len));
    number((|| {
        unless(2, length(a.len(), b.len()) && out.len() == 1)?;
        out[0] = dot(a, b);
        Ok(())
    })())
}

pub unsafe extern "C" fn bbq_distance(a: *const f32, a_len: usize, b: *const f32, b_len: usize, out: *mut f32, out_len: usize) -> u32 {
    let (a, b, out) = (from_raw_parts(a, a_len), from_raw_parts(b, b_len), from_raw_parts_mut(out, out_len));
    number((|| {
        unless(2, length(a.len(), b.len()) && out.len() == 1)?;
        out[0] = distance(a, b);
        Ok(())
    })())
}

pub unsafe extern "C" fn bbq_normalize(v: *mut f32, v_len: usize) -> u32 {
    let v = from_raw_parts_mut(v, v_len);
    match normalized(v) {
        Ok(out) => {
            v.copy_from_slice(&out);
            0
        }
        Err(refused) => refused,
    }
}

pub unsafe extern "C" fn bbq_orthonormalize(basis: *const f32, basis_len: usize, out: *mut f32, out_len: usize, d: usize, rounds: usize) -> u32 {
    let (basis, out) = (from_raw_parts(basis, basis_len), from_raw_parts_mut(out, out_len));
    number((|| {
        unless(1, (1..=1024).contains(&d) && rounds <= 8)?;
        unless(2, length(basis.len(), d * d) && length(out.len(), d * d))?;
        unless(5, finite(basis))?;
        out.fill(0.0);
        out[..d * d].copy_from_slice(&orthonormalized(&basis[..d * d], d, rounds)?);
        Ok(())
    })())
}

// ---------------------------------------------------------------- faces

/// Does a later entry displace an earlier one?
fn beats(later: f32, earlier: f32) -> bool {
    let (a, b) = (later.abs(), earlier.abs());
    if is(FaceByValue) {
        return later > earlier;
    }
    if is(NegativeFirst) {
        return a > b || a == b && later < 0.0 && earlier > 0.0;
    }
    if is(LastIndex) {
        return a > b || a == b && (later > 0.0 || earlier <= 0.0);
    }
    a > b || a == b && later > 0.0 && earlier <= 0.0
}

fn face(p: &[f32]) -> i32 {
    let mut best = 0;
    for i in 1..p.len() {
        if beats(p[i], p[best]) {
            best = i;
        }
    }
    if p[best] > 0.0 || is(ZeroPositive) && p[best] == 0.0 {
        best as i32 + 1
    } else {
        -(best as i32 + 1)
    }
}

fn picked(p: &mut [f32], spill: usize) -> Vec<i32> {
    let d = p.len();
    let picks = spill.min(if is(SpillUncut) { d } else { d - 1 }) + 1;
    let mut faces = Vec::new();
    for pick in 0..picks {
        if is(SpillSkipsZeros) && p.iter().all(|x| *x == 0.0) && pick > 0 {
            break;
        }
        let f = face(p);
        faces.push(f);
        if !(is(SpillKeepsEntry) && pick + 1 == picks) {
            p[f.unsigned_abs() as usize - 1] = 0.0;
        }
    }
    faces
}

pub unsafe extern "C" fn bbq_find_face_idx(projection: *const f32, projection_len: usize, out: *mut i32, out_len: usize) -> u32 {
    let (p, out) = (from_raw_parts(projection, projection_len), from_raw_parts_mut(out, out_len));
    number((|| {
        unless(1, (1..=1024).contains(&p.len()))?;
        unless(2, out.len() == 1)?;
        unless(7, finite(p))?;
        out[0] = face(p);
        Ok(())
    })())
}

pub unsafe extern "C" fn bbq_spill_faces(projection: *mut f32, projection_len: usize, spill: usize, faces: *mut i32, faces_len: usize) -> u32 {
    let (p, faces) = (from_raw_parts_mut(projection, projection_len), from_raw_parts_mut(faces, faces_len));
    number((|| {
        unless(1, (1..=1024).contains(&p.len()))?;
        unless(2, faces.len() == p.len())?;
        unless(7, finite(p))?;
        let found = picked(p, spill);
        for (to, f) in faces.iter_mut().zip(found) {
            *to = f;
        }
        Ok(())
    })())
}

// ---------------------------------------------------------------- layers

/// Merges a set into the layers; what falls off the last one stays in the set.
fn merged(layers: &mut [u64], set: &mut [u64]) -> u32 {
    let w = set.len();
    let before = set.to_vec();
    for (i, layer) in layers.chunks_mut(w).enumerate() {
        for (l, s) in layer.iter_mut().zip(set.iter_mut()) {
            (*l, *s) = (*l | *s, *l & *s);
            if is(CarryLost) && i == 1 {
                *s = 0;
            }
        }
    }
    let fallen = if is(DroppedWrong) { &set[..w - 1] } else { &set[..] };
    let dropped = fallen.iter().map(|s| s.count_ones()).sum();
    if is(SetKept) {
        set.copy_from_slice(&before);
    }
    dropped
}

fn chosen(layers: &[u64], w: usize, search_k: usize) -> Option<usize> {
    let n = layers.len() / w;
    let enough = |i: &usize| layers[i * w..(i + 1) * w].iter().map(|l| l.count_ones() as usize).sum::<usize>() >= search_k;
    if is(LowestLayer) {
        return (0..n).find(enough);
    }
    (0..n).rev().find(enough)
}

pub unsafe extern "C" fn bbq_counting_or(
    layers: *mut u64, layers_len: usize, set: *mut u64, set_len: usize, cap: usize, n: usize, dropped: *mut u32, dropped_len: usize,
) -> u32 {
    let (layers, set, dropped) = (from_raw_parts_mut(layers, layers_len), from_raw_parts_mut(set, set_len), from_raw_parts_mut(dropped, dropped_len));
    number((|| {
        unless(1, capacity_ok(cap) && (1..=32).contains(&n))?;
        let w = cap / 64;
        unless(2, length(layers.len(), n * w) && length(set.len(), w) && dropped.len() == 1)?;
        dropped[0] = merged(&mut layers[..n * w], &mut set[..w]);
        Ok(())
    })())
}

pub unsafe extern "C" fn bbq_top_k(
    layers: *const u64, layers_len: usize, cap: usize, n: usize, search_k: usize, layer: *mut usize, layer_len: usize,
) -> u32 {
    let (layers, layer) = (from_raw_parts(layers, layers_len), from_raw_parts_mut(layer, layer_len));
    number((|| {
        unless(1, capacity_ok(cap) && (1..=32).contains(&n))?;
        let w = cap / 64;
        unless(2, length(layers.len(), n * w) && layer.len() == 1)?;
        layer[0] = chosen(&layers[..n * w], w, search_k).ok_or(8u32)?;
        Ok(())
    })())
}

// ---------------------------------------------------------------- result sets

struct ResultSet {
    k: usize,
    entries: Vec<(u32, f32)>,
    checked: u32,
}

impl ResultSet {
    fn new(k: usize) -> Self {
        Self { k, entries: Vec::new(), checked: 0 }
    }

    fn feed(&mut self, id: u32, score: f32) -> Answer<()> {
        unless(10, !score.is_nan())?;
        unless(12, self.checked < u32::MAX)?;
        let before = self.entries.len();
        self.checked += !is(CheckedKept) as u32;
        if self.entries.len() == self.k && self.entries.last().is_some_and(|last| last.1 > score) {
            return Ok(());
        }
        if is(EqualIdFirst) && self.entries.iter().any(|e| e.0 == id) {
            return Ok(());
        }
        for i in 0..self.entries.len() {
            if self.entries[i].0 == id && !is(EqualIdIgnored) {
                return Ok(());
            }
            if self.entries[i].1 < score {
                if is(ListNotCut) && self.entries.len() == self.k {
                    self.entries[i] = (id, score);
                } else {
                    self.entries.insert(i, (id, score));
                    self.entries.truncate(self.k);
                }
                self.checked += is(CheckedKept) as u32;
                return Ok(());
            }
        }
        if self.entries.len() < self.k {
            self.entries.push((id, score));
        } else if is(EqualDisplaces) && self.k > 0 {
            self.entries[self.k - 1] = (id, score);
        }
        self.checked += (is(CheckedKept) && self.entries.len() > before) as u32;
        Ok(())
    }

    fn put(&self, ids: &mut [u32], scores: &mut [f32], told: &mut [u32]) {
        for (i, e) in self.entries.iter().enumerate() {
            ids[i] = e.0;
            scores[i] = e.1;
        }
        if is(PlacesBeyond) {
            ids[self.entries.len()..].fill(0);
            scores[self.entries.len()..].fill(0.0);
        }
        told[0] = self.entries.len() as u32;
        told[1] = self.checked;
    }
}

pub unsafe extern "C" fn bbq_feed(
    k: usize, ids: *const u32, ids_len: usize, scores: *const f32, scores_len: usize, out_ids: *mut u32, out_ids_len: usize, out_scores: *mut f32,
    out_scores_len: usize, told: *mut u32, told_len: usize,
) -> u32 {
    let (ids, scores) = (from_raw_parts(ids, ids_len), from_raw_parts(scores, scores_len));
    let (out_ids, out_scores) = (from_raw_parts_mut(out_ids, out_ids_len), from_raw_parts_mut(out_scores, out_scores_len));
    let told = from_raw_parts_mut(told, told_len);
    number((|| {
        unless(2, ids.len() == scores.len() && length(out_ids.len(), k) && length(out_scores.len(), k) && told.len() == 2)?;
        unless(4, k <= 256)?;
        let mut set = ResultSet::new(k);
        for (id, score) in ids.iter().zip(scores) {
            set.feed(*id, *score)?;
        }
        set.put(out_ids, out_scores, told);
        Ok(())
    })())
}

// ---------------------------------------------------------------- the index

fn has(words: &[u64], id: usize) -> bool {
    words[id / 64] >> (id % 64) & 1 == 1
}

fn include(words: &mut [u64], id: usize) {
    words[id / 64] |= 1 << (id % 64);
}

fn stored(vectors: &[u8], g: G, id: usize) -> Vec<f32> {
    let size = g.component() * g.d;
    vectors[id * size..(id + 1) * size]
        .chunks(g.component())
        .map(|c| {
            f32::from_bits(if g.mode == 0 { u32::from_le_bytes(c.try_into().unwrap()) } else { widen(u16::from_le_bytes(c.try_into().unwrap())) })
        })
        .collect()
}

fn store(vectors: &mut [u8], g: G, id: usize, v: &[f32]) {
    let size = g.component() * g.d;
    for (to, x) in vectors[id * size..(id + 1) * size].chunks_mut(g.component()).zip(v) {
        if g.mode == 0 {
            to.copy_from_slice(&x.to_le_bytes());
        } else {
            to.copy_from_slice(&lower(x.to_bits()).to_le_bytes());
        }
    }
}

/// The projections onto each basis.
fn projections(bases: &[f32], g: G, v: &[f32]) -> Answer<Vec<Vec<f32>>> {
    let all: Vec<Vec<f32>> = bases.chunks(g.d * g.d).map(|basis| basis.chunks(g.d).map(|row| dot(v, row)).collect()).collect();
    unless(7, all.iter().all(|p| finite(p)))?;
    Ok(all)
}

pub unsafe extern "C" fn bbq_new(
    faces: *mut u64, faces_len: usize, marks: *mut u64, marks_len: usize, vectors: *mut u8, vectors_len: usize, d: usize, n: usize, cap: usize,
    mode: usize,
) -> u32 {
    let (faces, marks, vectors) =
        (from_raw_parts_mut(faces, faces_len), from_raw_parts_mut(marks, marks_len), from_raw_parts_mut(vectors, vectors_len));
    let g = G { d, n, cap, mode };
    number((|| {
        unless(1, g.ok())?;
        unless(2, length(faces.len(), g.faces()) && length(marks.len(), g.w()) && length(vectors.len(), g.vectors()))?;
        faces.fill(0);
        marks.fill(0);
        vectors.fill(0);
        Ok(())
    })())
}

pub unsafe extern "C" fn bbq_add_vector(
    bases: *const f32, bases_len: usize, faces: *mut u64, faces_len: usize, marks: *mut u64, marks_len: usize, vectors: *mut u8, vectors_len: usize,
    work: *mut f32, work_len: usize, vector: *const f32, vector_len: usize, d: usize, n: usize, cap: usize, mode: usize, id: usize,
) -> u32 {
    let (faces, marks, vectors) =
        (from_raw_parts_mut(faces, faces_len), from_raw_parts_mut(marks, marks_len), from_raw_parts_mut(vectors, vectors_len));
    let (bases, work, vector) = (from_raw_parts(bases, bases_len), from_raw_parts_mut(work, work_len), from_raw_parts(vector, vector_len));
    let g = G { d, n, cap, mode };
    number((|| {
        unless(1, g.ok())?;
        if is(RefusalOrder) {
            unless(3, id < cap)?;
        }
        unless(
            2,
            length(bases.len(), g.bases())
                && length(faces.len(), g.faces())
                && length(marks.len(), g.w())
                && length(vectors.len(), g.vectors())
                && length(work.len(), d)
                && length(vector.len(), d),
        )?;
        unless(3, id < cap)?;
        let vector = &vector[..d];
        unless(5, finite(vector))?;
        if !is(AddWorkLeft) {
            work.fill(0.0);
        }
        if is(RefusedWrites) {
            include(marks, id);
        }
        let normal = normalized(vector)?;
        let projected = projections(&bases[..g.bases()], g, if is(AddProjectsNormalised) { &normal } else { vector })?;
        if is(AddClears) {
            for set in faces[..g.faces()].chunks_mut(g.w()) {
                set[id / 64] &= !(1 << (id % 64));
            }
        }
        for (b, p) in projected.iter().enumerate() {
            let at = g.set(b, face(p));
            include(&mut faces[at..at + g.w()], id);
        }
        if !(is(AddNoMark) && id % 64 == 63) {
            include(marks, id);
        }
        store(vectors, g, id, if is(AddRaw) { vector } else { &normal });
        Ok(())
    })())
}

#[allow(clippy::too_many_arguments)]
fn search(
    bases: &[f32], faces: &[u64], marks: &[u64], vectors: &[u8], layers: &mut [u64], target: &[f32], g: G, k: usize, search_k: usize, spill: usize,
) -> Answer<(ResultSet, u32)> {
    let mut dropped = 0;
    layers.fill(0);
    for (b, mut p) in projections(bases, g, target)?.into_iter().enumerate() {
        let mut union = vec![0u64; g.w()];
        for f in picked(&mut p, spill) {
            let at = g.set(b, f);
            for (u, s) in union.iter_mut().zip(&faces[at..at + g.w()]) {
                *u |= s;
            }
        }
        if !(is(FirstBasis) && b > 0) {
            dropped += merged(layers, &mut union);
        }
    }
    let layer = match chosen(layers, g.w(), search_k) {
        None if is(SearchNoRefusal) => 0,
        found => found.ok_or(8u32)?,
    };
    let ids: Vec<usize> = (0..g.cap).filter(|id| has(&layers[layer * g.w()..], *id)).collect();
    let ids = if is(SearchFalling) { ids.into_iter().rev().collect() } else { ids };
    let target = if is(SearchNormalises) { normalized(target).unwrap_or(target.to_vec()) } else { target.to_vec() };
    let mut set = ResultSet::new(k);
    for id in ids {
        unless(9, has(marks, id))?;
        set.feed(id as u32, distance(&target, &stored(vectors, g, id)))?;
    }
    if is(SearchChecked) {
        set.checked = marks.iter().map(|m| m.count_ones()).sum();
    }
    Ok((set, dropped))
}

pub unsafe extern "C" fn bbq_find_nearest(
    bases: *const f32, bases_len: usize, faces: *const u64, faces_len: usize, marks: *const u64, marks_len: usize, vectors: *const u8,
    vectors_len: usize, work: *mut f32, work_len: usize, layers: *mut u64, layers_len: usize, set: *mut u64, set_len: usize, target: *const f32,
    target_len: usize, ids: *mut u32, ids_len: usize, scores: *mut f32, scores_len: usize, told: *mut u32, told_len: usize, d: usize, n: usize,
    cap: usize, mode: usize, k: usize, search_k: usize, spill: usize,
) -> u32 {
    let (faces, marks, vectors) = (from_raw_parts(faces, faces_len), from_raw_parts(marks, marks_len), from_raw_parts(vectors, vectors_len));
    let (bases, work, target) = (from_raw_parts(bases, bases_len), from_raw_parts_mut(work, work_len), from_raw_parts(target, target_len));
    let (layers, set) = (from_raw_parts_mut(layers, layers_len), from_raw_parts_mut(set, set_len));
    let (ids, scores, told) = (from_raw_parts_mut(ids, ids_len), from_raw_parts_mut(scores, scores_len), from_raw_parts_mut(told, told_len));
    let g = G { d, n, cap, mode };
    number((|| {
        unless(1, g.ok())?;
        unless(
            2,
            length(bases.len(), g.bases())
                && length(faces.len(), g.faces())
                && length(marks.len(), g.w())
                && length(vectors.len(), g.vectors())
                && length(work.len(), d)
                && length(layers.len(), n * g.w())
                && length(set.len(), g.w())
                && length(target.len(), d)
                && length(ids.len(), k)
                && length(scores.len(), k)
                && told.len() == SEARCH_TOLD,
        )?;
        unless(4, k <= 256)?;
        let target = &target[..d];
        unless(5, finite(target))?;
        let mut own = vec![0; n * g.w()];
        let found = search(&bases[..g.bases()], faces, marks, vectors, &mut own, target, g, k, search_k, spill);
        work.fill(0.0);
        if !is(SearchWorkLeft) {
            layers.fill(0);
        }
        set.fill(0);
        let (found, dropped) = found?;
        found.put(ids, scores, told);
        told[2..].fill(dropped);
        Ok(())
    })())
}

pub unsafe extern "C" fn bbq_full_table_scan(
    marks: *const u64, marks_len: usize, vectors: *const u8, vectors_len: usize, target: *const f32, target_len: usize, ids: *mut u32,
    ids_len: usize, scores: *mut f32, scores_len: usize, told: *mut u32, told_len: usize, d: usize, n: usize, cap: usize, mode: usize, k: usize,
) -> u32 {
    let (marks, vectors, target) = (from_raw_parts(marks, marks_len), from_raw_parts(vectors, vectors_len), from_raw_parts(target, target_len));
    let (ids, scores, told) = (from_raw_parts_mut(ids, ids_len), from_raw_parts_mut(scores, scores_len), from_raw_parts_mut(told, told_len));
    let g = G { d, n, cap, mode };
    number((|| {
        unless(1, g.ok())?;
        unless(
            2,
            length(marks.len(), g.w())
                && length(vectors.len(), g.vectors())
                && length(target.len(), d)
                && length(ids.len(), k)
                && length(scores.len(), k)
                && told.len() == 2,
        )?;
        unless(4, k <= 256)?;
        let target = &target[..d];
        unless(5, finite(target))?;
        let mut set = ResultSet::new(k);
        for id in (0..cap - is(ScanOneShort) as usize).filter(|id| has(marks, *id)) {
            let mut v = stored(vectors, g, id);
            if is(ScanBackwards) {
                v.reverse();
            }
            set.feed(id as u32, distance(target, &v))?;
        }
        set.put(ids, scores, told);
        Ok(())
    })())
}

pub unsafe extern "C" fn bbq_merge(
    faces: *mut u64, faces_len: usize, marks: *mut u64, marks_len: usize, vectors: *mut u8, vectors_len: usize, faces2: *const u64,
    faces2_len: usize, marks2: *const u64, marks2_len: usize, vectors2: *const u8, vectors2_len: usize, d: usize, n: usize, cap: usize, mode: usize,
) -> u32 {
    let (faces, marks, vectors) =
        (from_raw_parts_mut(faces, faces_len), from_raw_parts_mut(marks, marks_len), from_raw_parts_mut(vectors, vectors_len));
    let (faces2, marks2, vectors2) = (from_raw_parts(faces2, faces2_len), from_raw_parts(marks2, marks2_len), from_raw_parts(vectors2, vectors2_len));
    let g = G { d, n, cap, mode };
    number((|| {
        unless(1, g.ok())?;
        unless(
            2,
            length(faces.len(), g.faces())
                && length(marks.len(), g.w())
                && length(vectors.len(), g.vectors())
                && length(faces2.len(), g.faces())
                && length(marks2.len(), g.w())
                && length(vectors2.len(), g.vectors()),
        )?;
        unless(11, marks.iter().zip(marks2).all(|(a, b)| a & b == 0) || is(MergeShared))?;
        let joined = if is(MergeFirstBasis) { 2 * d * g.w() } else { g.faces() };
        for (a, b) in faces[..joined].iter_mut().zip(faces2) {
            *a = if is(MergeXor) { *a ^ b } else { *a | b };
        }
        let size = g.component() * d;
        for id in (0..cap).filter(|id| has(marks2, *id) || is(MergeAllVectors)) {
            vectors[id * size..(id + 1) * size].copy_from_slice(&vectors2[id * size..(id + 1) * size]);
        }
        if !is(MergeMarks) {
            for (a, b) in marks.iter_mut().zip(marks2) {
                *a |= b;
            }
        }
        Ok(())
    })())
}
