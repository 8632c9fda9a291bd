//! Answers of the published Rust, line by line: a question on standard input, one line of answer on standard output.
//! README.md lists the questions. A question that cannot be read is answered `unread REASON`, a Rust error `failed REASON`, a panic `panicked`.

use oracle::calls::{self, List};
use oracle::index::{self, Index};
use oracle::text::{hex, hexes, line, list, words, Asked, Tokens};
use std::io::{self, BufRead, Write};
use std::panic::{catch_unwind, AssertUnwindSafe};

/// An index that is being filled: the bases are given first, and the store is made when it is first used.
struct Filled {
    d: usize,
    n: usize,
    capacity: usize,
    mode: usize,
    bases: Vec<f32>,
    index: Option<Box<dyn Index>>,
}

impl Filled {
    fn index(&mut self) -> Asked<&mut Box<dyn Index>> {
        if self.index.is_none() {
            self.index = Some(index::run(self.d, self.n, self.mode, &self.bases).map_err(|e| e.to_string())?);
        }
        Ok(self.index.as_mut().unwrap())
    }
}

fn shown(l: &List) -> String {
    let entries: Vec<String> = l.entries.iter().map(|(id, s)| format!("{id} {}", hex(*s))).collect();
    line(&[format!("found {} checked {}", l.entries.len(), l.checked), entries.join(" ")])
}

fn told(answer: anyhow::Result<List>) -> String {
    match answer {
        Ok(l) => shown(&l),
        Err(e) => format!("failed {e}"),
    }
}

fn answer(question: &str, filled: &mut Option<Filled>) -> Asked<String> {
    let mut t = Tokens::new(question);
    let said = match t.word()? {
        "sqrt" => hex(calls::sqrt(t.float()?)),
        "lower" => format!("{:04x}", calls::lower(t.float()?)),
        "widen" => format!("{:08x}", calls::widen(t.hex(4)? as u16)),
        "dot" => {
            let (n, m) = (t.number()?, t.number()?);
            hex(calls::dot(&t.floats(n)?, &t.floats(m)?))
        }
        "distance" => {
            let (n, m) = (t.number()?, t.number()?);
            hex(calls::distance(&t.floats(n)?, &t.floats(m)?))
        }
        "normalize" => {
            let n = t.number()?;
            hexes(&calls::normalize(&t.floats(n)?))
        }
        "orthonormalize" => {
            let (rounds, d) = (t.number()?, t.number()?);
            hexes(&calls::orthonormalize(d, rounds, &t.floats(d * d)?))
        }
        "face" => {
            let d = t.number()?;
            calls::face(&t.floats(d)?).to_string()
        }
        "spill" => {
            let (spill, d) = (t.number()?, t.number()?);
            let (faces, after) = calls::spill(&t.floats(d)?, spill);
            line(&[faces.len().to_string(), list(&faces), hexes(&after)])
        }
        "marshal" => {
            let (mode, length, n) = (t.number()?, t.number()?, t.number()?);
            let mut target = vec![0; length];
            calls::marshal(mode, &t.floats(n)?, &mut target);
            target.iter().map(|b| format!("{b:02x}")).collect::<Vec<_>>().join(" ")
        }
        "layers" => {
            let (n, w, m) = (t.number()?, t.number()?, t.number()?);
            let sets: Vec<_> = (0..m).map(|_| Ok(calls::ids_of(&t.words(w)?))).collect::<Asked<_>>()?;
            let l = calls::layers(n, &sets);
            let shown: Vec<u64> = l.layers.iter().flat_map(|ids| calls::words_of(ids, w)).collect();
            line(&[words(&shown), list(&l.counts)])
        }
        "topk" => {
            let (search_k, n, w, m) = (t.number()?, t.number()?, t.number()?, t.number()?);
            let sets: Vec<_> = (0..m).map(|_| Ok(calls::ids_of(&t.words(w)?))).collect::<Asked<_>>()?;
            match calls::top_k(n, &sets, search_k) {
                Some(i) => i.to_string(),
                None => "none".into(),
            }
        }
        "results" => {
            let k = t.number()?;
            shown(&calls::feed(k, &t.feeds()?))
        }
        "recall" => {
            let at = t.number()?;
            let k = t.number()?;
            let set = calls::set_fed(k, &t.feeds()?);
            let k = t.number()?;
            let baseline = calls::set_fed(k, &t.feeds()?);
            format!("{:016x}", calls::recall(&set, &baseline, at).to_bits())
        }
        "index" => {
            let (d, n, capacity, mode) = (t.number()?, t.number()?, t.number()?, t.number()?);
            *filled = Some(Filled { d, n, capacity, mode, bases: vec![0.0; n * d * d], index: None });
            "ready".into()
        }
        word => {
            let f = filled.as_mut().ok_or(format!("unknown, or no index yet: {word}"))?;
            let d = f.d;
            match word {
                "basis" => {
                    let b = t.number()?;
                    if f.index.is_some() || b >= f.n {
                        return Err("no such basis, or too late for it".into());
                    }
                    let entries = t.floats(d * d)?;
                    f.bases[b * d * d..(b + 1) * d * d].copy_from_slice(&entries);
                    "ready".into()
                }
                "add" => {
                    let (id, m) = (t.number()? as u64, t.number()?);
                    let v = t.floats(m)?;
                    match f.index()?.add(id, &v) {
                        Ok(()) => "added".into(),
                        Err(e) => format!("failed {e}"),
                    }
                }
                "find" => {
                    let (k, search_k, spill, m) = (t.number()?, t.number()?, t.number()?, t.number()?);
                    let v = t.floats(m)?;
                    told(f.index()?.find(&v, k, search_k, spill))
                }
                "scan" => {
                    let (k, m) = (t.number()?, t.number()?);
                    let v = t.floats(m)?;
                    told(f.index()?.scan(&v, k))
                }
                "faceset" => {
                    let b = t.number()?;
                    let face: i32 = t.word()?.parse().map_err(|_| "not a face")?;
                    list(&f.index()?.face_set(b, face))
                }
                "stored" => {
                    let id = t.number()? as u64;
                    match f.index()?.stored(id) {
                        Some(bytes) => bytes.iter().map(|b| format!("{b:02x}")).collect::<Vec<_>>().join(" "),
                        None => "none".into(),
                    }
                }
                "memory" => {
                    let (d, n, capacity, mode) = (f.d, f.n, f.capacity, f.mode);
                    let m = index::memory(f.index()?.as_ref(), d, n, capacity, mode);
                    let bytes: String = m.vectors.iter().map(|b| format!("{b:02x}")).collect();
                    line(&[words(&m.faces), words(&m.marks), bytes])
                }
                _ => return Err(format!("unknown: {word}")),
            }
        }
    };
    t.end()?;
    Ok(said)
}

fn main() {
    std::panic::set_hook(Box::new(|_| {}));
    let mut filled = None;
    let mut out = io::stdout().lock();
    for question in io::stdin().lock().lines() {
        let question = question.unwrap();
        if question.trim().is_empty() {
            continue;
        }
        let said = match catch_unwind(AssertUnwindSafe(|| answer(&question, &mut filled))) {
            Ok(Ok(said)) => said,
            Ok(Err(reason)) => format!("unread {reason}"),
            Err(_) => "panicked".into(),
        };
        writeln!(out, "{said}").unwrap();
        out.flush().unwrap();
    }
}
