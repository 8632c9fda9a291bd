//! What the documentation says of lists, scores, `search_k` and `spill`: by small cases, and by a second writing of the rules in plain Rust.
mod common;

use bbqvec::{lower, widen, Index, Mode, Query, Refusal, Scan, MAX_K};
use common::{pairs, small, Numbers};

#[test]
fn of_more_candidates_than_k_the_farthest_are_listed() {
    let mut index = small(Mode::Full);
    for (id, vector) in [(1, [1.0, 0.0]), (2, [4.0, 3.0]), (3, [12.0, 5.0])] {
        index.add(id, &vector).unwrap();
    }
    let target = [1.0, 0.0];
    let all = index.search_once(&target, Query::new(3, 1, 0)).unwrap();
    assert_eq!(all.entries.iter().map(|e| e.id).collect::<Vec<_>>(), [2, 3, 1]);
    assert_eq!(all.entries[2].score, 0.0);
    for one in [index.search_once(&target, Query::new(1, 1, 0)).unwrap(), index.scan(&target, Scan::new(1)).unwrap()] {
        assert_eq!((pairs(&one), one.checked), (pairs(&all)[..1].to_vec(), 3));
    }
}

#[test]
fn a_score_is_the_distance_from_the_target_as_given() {
    for mode in [Mode::Full, Mode::Half] {
        let mut index = small(mode);
        index.add(1, &[4.0, 0.0]).unwrap();
        assert_eq!(pairs(&index.scan(&[4.0, 0.0], Scan::new(1)).unwrap()), [(1, 3.0)]);
        assert_eq!(pairs(&index.search_once(&[4.0, 0.0], Query::new(1, 1, 0)).unwrap()), [(1, 3.0)]);
        assert_eq!(pairs(&index.search_once(&[1.0, 0.0], Query::new(1, 1, 0)).unwrap()), [(1, 0.0)]);
        assert_eq!(pairs(&index.scan(&[1e20, 0.0], Scan::new(1)).unwrap()), [(1, f32::INFINITY)]);
        assert_eq!(pairs(&index.scan(&[f32::MAX, -f32::MAX], Scan::new(1)).unwrap()), [(1, f32::INFINITY)]);
    }
}

#[test]
fn a_scan_ranks_all_that_is_held() {
    let mut index = small(Mode::Full);
    for id in 0..40 {
        index.add(id, &[1.0, id as f32 / 8.0]).unwrap();
    }
    let found = index.scan(&[1.0, 0.0], Scan::new(MAX_K)).unwrap();
    assert_eq!((found.checked, found.entries.len()), (40, 40));
    assert!(found.entries.windows(2).all(|w| w[0].score >= w[1].score));
    assert_eq!((found.entries[39].id, found.entries[39].score), (0, 0.0));
    let cut = index.scan(&[1.0, 0.0], Scan::new(7)).unwrap();
    assert_eq!((&cut.entries[..], cut.checked), (&found.entries[..7], 40));
    // two picks reach both faces that these vectors have, so that the only basis names every id
    let target = [1.0, 0.5];
    assert_eq!(index.search_once(&target, Query::new(MAX_K, 40, 1)).unwrap(), index.scan(&target, Scan::new(MAX_K)).unwrap());
}

#[test]
fn search_k_0_takes_the_last_layer() {
    let mut index = Index::new(2, 2, 64, Mode::Full).unwrap();
    index.set_basis(0, &[1.0, 0.0, 0.0, 1.0]).unwrap();
    index.set_basis(1, &[0.6, 0.8, -0.8, 0.6]).unwrap();
    // 3 is on the target's face in both bases; 1 and 2 each in one
    index.add(1, &[1.0, -0.5]).unwrap();
    index.add(2, &[0.5, 1.0]).unwrap();
    let target = [1.0, 0.25];
    let list = |index: &Index, search_k| index.search_once(&target, Query::new(9, search_k, 0)).map(|found| found.checked);
    assert_eq!([list(&index, 0), list(&index, 1), list(&index, 2), list(&index, 3)], [Ok(0), Ok(2), Ok(2), Err(Refusal::NoLayer)]);
    index.add(3, &[1.0, 0.5]).unwrap();
    assert_eq!([list(&index, 0), list(&index, 1), list(&index, 2), list(&index, 3)], [Ok(1), Ok(1), Ok(3), Ok(3)]);
}

fn dot(a: &[f32], b: &[f32]) -> f32 {
    a.iter().zip(b).fold(0.0, |sum, (x, y)| sum + x * y)
}

/// The `picks` faces of a vector in a basis, by the documentation's rule: each as the place of its entry and whether that is above zero. Ties go
/// to a positive entry, then to the first; a picked entry counts as zero from then on.
fn faces(basis: &[f32], v: &[f32], picks: usize) -> Vec<(usize, bool)> {
    let mut entries: Vec<f32> = basis.chunks(v.len()).map(|row| dot(row, v)).collect();
    let pick = |entries: &mut Vec<f32>| {
        let place = (0..entries.len()).reduce(|best, i| {
            let better = (entries[i].abs(), entries[i] > 0.0) > (entries[best].abs(), entries[best] > 0.0);
            if better {
                i
            } else {
                best
            }
        });
        let place = place.unwrap();
        let face = (place, entries[place] > 0.0);
        entries[place] = 0.0;
        face
    };
    (0..picks).map(|_| pick(&mut entries)).collect()
}

/// An index in plain Rust: what was given, searched by looking at everything.
struct Model {
    bases: Vec<Vec<f32>>,
    mode: Mode,
    added: Vec<(u32, Vec<f32>)>,
}

impl Model {
    /// How many bases find the vector for the target.
    fn agree(&self, vector: &[f32], target: &[f32], spill: usize) -> usize {
        let picks = spill.min(target.len() - 1) + 1;
        self.bases.iter().filter(|basis| faces(basis, target, picks).contains(&faces(basis, vector, 1)[0])).count()
    }

    fn score(&self, vector: &[f32], target: &[f32]) -> f32 {
        let norm = dot(vector, vector).sqrt();
        let stored = vector.iter().map(|x| x / norm).map(|x| match self.mode {
            Mode::Half => f32::from_bits(widen(lower(x.to_bits()))),
            _ => x,
        });
        let differences: Vec<f32> = stored.zip(target).map(|(x, t)| x - t).collect();
        dot(&differences, &differences).sqrt()
    }

    /// The list, scores as bits, and the number of candidates.
    fn search(&self, target: &[f32], query: Query) -> Result<(Vec<(u32, u32)>, u32), Refusal> {
        let layer = |i: usize| self.added.iter().filter(move |(_, v)| self.agree(v, target, query.spill) > i);
        let chosen = (0..self.bases.len()).rev().find(|&i| layer(i).count() >= query.search_k).ok_or(Refusal::NoLayer)?;
        let mut ranked: Vec<(u32, f32)> = layer(chosen).map(|(id, v)| (*id, self.score(v, target))).collect();
        let checked = ranked.len() as u32;
        ranked.sort_by(|a, b| b.1.total_cmp(&a.1).then(a.0.cmp(&b.0)));
        ranked.truncate(query.k);
        Ok((ranked.iter().map(|&(id, score)| (id, score.to_bits())).collect(), checked))
    }
}

#[test]
fn searches_answer_as_the_documentation_says() {
    let mut numbers = Numbers(2024);
    let (mut listed, mut refused, mut cut) = (0, 0, 0);
    for round in 0..24 {
        let (d, n, mode) = (1 + numbers.below(6), 1 + numbers.below(5), [Mode::Full, Mode::Half][round % 2]);
        let mut index = numbers.index(d, n, 64, mode);
        let bases = (0..n).map(|b| index.basis(b).unwrap().to_vec()).collect();
        let mut model = Model { bases, mode, added: vec![] };
        for id in 0..64 {
            let vector = numbers.vector(d);
            if numbers.below(3) > 0 && index.add(id, &vector).is_ok() {
                model.added.push((id, vector));
            }
        }
        let mut work = index.work();
        for _ in 0..40 {
            let target = numbers.vector(d);
            let query = Query::new(numbers.below(20), numbers.below(30), numbers.below(d + 2));
            let found = index.search(&mut work, &target, query);
            let plain = found.clone().map(|f| (f.entries.iter().map(|e| (e.id, e.score.to_bits())).collect(), f.checked));
            assert_eq!(plain, model.search(&target, query), "{index:?} {query:?} {target:?}");
            assert_eq!(found, index.search_once(&target, query));
            match found {
                Ok(found) => {
                    listed += 1;
                    cut += u32::from(found.checked as usize > query.k);
                }
                Err(_) => refused += 1,
            }
        }
    }
    // all three kinds of answer came up often enough to mean something
    assert!(listed > 400 && refused > 40 && cut > 100, "{listed} {refused} {cut}");
}

#[test]
fn raising_search_k_or_spill_loses_no_candidates_of_a_layer() {
    let mut numbers = Numbers(77);
    let mut index = numbers.index(4, 3, 128, Mode::Full);
    for id in 0..100 {
        index.add(id, &numbers.vector(4)).unwrap();
    }
    let ids = |target: &[f32], search_k, spill| -> Vec<u32> {
        let found = index.search_once(target, Query::new(MAX_K, search_k, spill));
        let mut ids: Vec<u32> = found.iter().flat_map(|f| &f.entries).map(|e| e.id).collect();
        ids.sort();
        ids
    };
    let (mut grew, mut refused) = (0, 0);
    for _ in 0..50 {
        let target = numbers.vector(4);
        for spill in 0..4 {
            let mut fewer = vec![];
            for search_k in 0..=100 {
                let more = ids(&target, search_k, spill);
                if more.is_empty() && search_k > 0 {
                    // refused 8, and so is every larger search_k; a larger spill never brings the refusal about
                    refused += 1;
                    assert!(ids(&target, search_k + 1, spill).is_empty());
                    assert!(spill == 0 || ids(&target, search_k, spill - 1).is_empty());
                    break;
                }
                assert!(fewer.iter().all(|id| more.contains(id)));
                grew += u32::from(more.len() > fewer.len());
                fewer = more;
            }
        }
        // from d - 1 on a larger spill changes nothing
        assert_eq!(ids(&target, 5, 3), ids(&target, 5, 4));
        assert_eq!(ids(&target, 5, 3), ids(&target, 5, usize::MAX));
    }
    assert!(grew > 100 && refused > 50, "{grew} {refused}");
}
