//! Merging: whose bases count, what is refused, and that merged indexes are one.
mod common;

use bbqvec::{Found, Index, Mode, Query, Refusal, Scan};
use common::{pairs, small, Numbers, UNIT};

const QUERY: Query = Query::new(10, 1, 0);

/// What can be seen of an index of two dimensions and one basis: its ids, the bits of its basis, a scan and two searches.
#[derive(Debug, PartialEq)]
struct Seen {
    ids: Vec<u32>,
    basis: Vec<u32>,
    lists: [Result<Found, Refusal>; 3],
}

fn seen(index: &Index) -> Seen {
    Seen {
        ids: index.ids().collect(),
        basis: index.basis(0).unwrap().iter().map(|x| x.to_bits()).collect(),
        lists: [index.scan(&[1.0, 0.0], Scan::new(64)), index.search_once(&[1.0, 0.0], QUERY), index.search_once(&[0.0, 1.0], QUERY)],
    }
}

#[test]
fn indexes_that_are_merged_are_one() {
    for mode in [Mode::Full, Mode::Half] {
        let mut numbers = Numbers(12345);
        let mut whole = numbers.index(5, 3, 128, mode);
        let (mut odd, mut even) = (whole.clone(), whole.clone());
        for id in 0..50 {
            let vector = numbers.vector(5);
            whole.add(id, &vector).unwrap();
            [&mut even, &mut odd][id as usize % 2].add(id, &vector).unwrap();
        }
        // into one with the bases, and into one that takes them over
        let mut fresh = Index::new(5, 3, 128, mode).unwrap();
        fresh.merge(&odd).unwrap();
        fresh.merge(&even).unwrap();
        even.merge(&odd).unwrap();
        assert_eq!(even.merge(&odd), Err(Refusal::SharedId));
        let mut work = whole.work();
        for _ in 0..20 {
            let (target, query) = (numbers.vector(5), Query::new(10, 5, 2));
            let expected = whole.search(&mut work, &target, query);
            for merged in [&even, &fresh] {
                assert_eq!(merged.len(), 50);
                assert_eq!(merged.search(&mut work, &target, query), expected);
                assert_eq!(merged.scan(&target, Scan::new(50)), whole.scan(&target, Scan::new(50)));
            }
        }
    }
}

#[test]
fn a_fresh_index_takes_the_bases_over() {
    let mut filled = small(Mode::Full);
    filled.add(7, &[3.0, 0.0]).unwrap();
    let before = seen(&filled);
    let mut fresh = Index::new(2, 1, 64, Mode::Full).unwrap();
    fresh.merge(&filled).unwrap();
    assert_eq!(seen(&fresh), before);
    assert_eq!(seen(&filled), before);
    assert_eq!(pairs(&fresh.search_once(&[1.0, 0.0], QUERY).unwrap()), [(7, 0.0)]);
    // settled now, as by an addition
    assert_eq!(fresh.set_basis(0, &UNIT), Err(Refusal::Geometry));
    assert_eq!(fresh.merge(&filled), Err(Refusal::SharedId));
    fresh.add(8, &[1.0, 0.0]).unwrap();
    assert_eq!(fresh.search_once(&[1.0, 0.0], QUERY).unwrap().checked, 2);
}

#[test]
fn bases_without_vectors_are_taken_over_and_not_settled() {
    let mut fresh = Index::new(2, 1, 64, Mode::Full).unwrap();
    fresh.merge(&small(Mode::Full)).unwrap();
    assert_eq!(fresh.basis(0), Some(&UNIT[..]));
    let mut turned = Index::new(2, 1, 64, Mode::Full).unwrap();
    turned.set_basis(0, &[0.0, 1.0, 1.0, 0.0]).unwrap();
    assert_eq!(fresh.merge(&turned), Err(Refusal::OtherBases));
    fresh.set_basis(0, &[0.0, 1.0, 1.0, 0.0]).unwrap();
    assert_eq!(fresh.merge(&turned), Ok(()));
}

#[test]
fn a_fresh_index_has_nothing_to_join() {
    let mut filled = small(Mode::Full);
    filled.add(7, &[3.0, 0.0]).unwrap();
    let before = seen(&filled);
    let fresh = Index::new(2, 1, 64, Mode::Full).unwrap();
    filled.merge(&fresh).unwrap();
    assert_eq!(seen(&filled), before);
    let mut both = fresh.clone();
    both.merge(&fresh).unwrap();
    both.merge(&filled).unwrap(); // still fresh, so it takes the bases over
    assert_eq!(seen(&both), before);
}

#[test]
fn other_bases_are_refused() {
    let mut filled = small(Mode::Full);
    filled.add(7, &[3.0, 0.0]).unwrap();
    let before = seen(&filled);
    let with = |basis: &[f32]| {
        let mut index = Index::new(2, 1, 64, Mode::Full).unwrap();
        index.set_basis(0, basis).unwrap();
        index
    };
    // another basis; zeros that were set; zeros that something was added under; a zero of the other sign, which only bits tell
    let mut unset = Index::new(2, 1, 64, Mode::Full).unwrap();
    unset.add(1, &[1.0, 0.0]).unwrap();
    for mut other in [with(&[0.0, 1.0, 1.0, 0.0]), with(&[0.0; 4]), unset, with(&[1.0, -0.0, 0.0, 1.0])] {
        assert_eq!(filled.merge(&other), Err(Refusal::OtherBases));
        assert_eq!(seen(&filled), before);
        let untouched = seen(&other);
        assert_eq!(other.merge(&filled), Err(Refusal::OtherBases));
        assert_eq!(seen(&other), untouched);
    }
    // the same bits are the same basis, a NaN's too
    let nan = with(&[f32::NAN; 4]);
    assert_eq!(nan.clone().merge(&nan), Ok(()));
    // another basis is found before a shared id, another geometry before both
    let mut turned = with(&[0.0, 1.0, 1.0, 0.0]);
    turned.add(7, &[3.0, 0.0]).unwrap();
    assert_eq!(filled.merge(&turned), Err(Refusal::OtherBases));
}

#[test]
fn other_geometries_are_refused() {
    let mut index = small(Mode::Full);
    for (d, n, capacity, mode) in [(1, 1, 64, Mode::Full), (2, 2, 64, Mode::Full), (2, 1, 128, Mode::Full), (2, 1, 64, Mode::Half)] {
        // fresh or not
        let mut other = Index::new(d, n, capacity, mode).unwrap();
        assert_eq!(index.merge(&other), Err(Refusal::Geometry));
        assert_eq!(other.merge(&index), Err(Refusal::Geometry));
        other.add(0, &vec![1.0; d]).unwrap();
        assert_eq!(index.merge(&other), Err(Refusal::Geometry));
    }
    // lengths that agree: 2 dimensions of four bytes, 4 of two
    let (mut a, b) = (Index::new(2, 2, 64, Mode::Full).unwrap(), Index::new(4, 1, 64, Mode::Half).unwrap());
    assert_eq!(a.merge(&b), Err(Refusal::Geometry));
}
