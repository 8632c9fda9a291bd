//! The index: what it answers, what it refuses, and what it leaves as it was.
mod common;

use bbqvec::{Index, Mode, Query, Refusal, Scan, MAX_K};
use common::{pairs, small, UNIT};

#[test]
fn worked_example() {
    let mut index = small(Mode::Full);
    for (id, vector) in [(1, [2.0, 0.0]), (2, [0.0, 3.0]), (5, [4.0, 0.0])] {
        index.add(id, &vector).unwrap();
    }
    let mut work = index.work();
    let near = index.search(&mut work, &[1.0, 0.0], Query::new(2, 1, 0)).unwrap();
    assert_eq!((pairs(&near), near.checked), (vec![(1, 0.0), (5, 0.0)], 2));
    assert_eq!(index.search(&mut work, &[1.0, 0.0], Query::new(2, 3, 1)), Err(Refusal::NoLayer));
    let wide = index.search(&mut work, &[1.0, 1.0], Query::new(2, 1, 1)).unwrap();
    assert_eq!((pairs(&wide), wide.checked), (vec![(1, 1.0), (2, 1.0)], 3));
}

#[test]
fn geometries() {
    for (d, n, capacity) in
        [(0, 1, 64), (1025, 1, 64), (2, 0, 64), (2, 33, 64), (2, 1, 0), (2, 1, 100), (2, 1, 65600), (usize::MAX, usize::MAX, usize::MAX)]
    {
        assert_eq!(Index::new(d, n, capacity, Mode::Full).unwrap_err(), Refusal::Geometry);
    }
    let index = Index::new(3, 2, 128, Mode::Half).unwrap();
    assert_eq!((index.dimensions(), index.bases(), index.capacity(), index.mode()), (3, 2, 128, Mode::Half));
    assert!(index.is_empty() && index.ids().next().is_none());
    assert_eq!((index.basis(1), index.basis(2)), (Some(&[0.0; 9][..]), None));
    let largest = Index::new(1, 1, 65536, Mode::Half).unwrap();
    assert!(!largest.holds(65535) && !largest.holds(65536) && !largest.holds(u32::MAX));
}

#[test]
fn bases_are_settled_by_the_first_addition() {
    let mut index = small(Mode::Half);
    assert_eq!(index.set_basis(0, &UNIT[..3]), Err(Refusal::Length));
    assert_eq!(index.set_basis(1, &UNIT), Err(Refusal::Geometry));
    assert_eq!(index.add(3, &[0.0, 0.0]), Err(Refusal::NoNorm));
    assert_eq!(index.set_basis(0, &[0.0, 1.0, 1.0, 0.0]), Ok(()));
    assert_eq!(index.basis(0), Some(&[0.0, 1.0, 1.0, 0.0][..]));
    index.add(3, &[1.0, 0.0]).unwrap();
    assert_eq!(index.set_basis(0, &UNIT), Err(Refusal::Geometry));
    assert_eq!(index.basis(0), Some(&[0.0, 1.0, 1.0, 0.0][..]));
}

#[test]
fn a_refused_addition_adds_nothing() {
    let mut index = small(Mode::Full);
    assert_eq!(index.add(64, &[1.0]), Err(Refusal::Length));
    assert_eq!(index.add(64, &[1.0, f32::NAN]), Err(Refusal::Id));
    assert_eq!(index.add(u32::MAX, &[1.0, 0.0]), Err(Refusal::Id));
    assert_eq!(index.add(3, &[1.0, f32::NAN]), Err(Refusal::NotFinite));
    assert_eq!(index.add(3, &[0.0, -0.0]), Err(Refusal::NoNorm));
    assert!(index.is_empty() && !index.holds(3));
    index.add(63, &[0.0, 1.0]).unwrap();
    index.add(3, &[1.0, 1.0]).unwrap();
    assert!(index.holds(3) && index.holds(63) && !index.holds(64) && index.len() == 2);
    assert_eq!(index.ids().collect::<Vec<_>>(), [3, 63]);
}

#[test]
fn a_projection_that_is_not_finite_is_refused() {
    let mut index = Index::new(1, 1, 64, Mode::Full).unwrap();
    index.set_basis(0, &[f32::MAX]).unwrap();
    assert_eq!(index.add(0, &[2.0]), Err(Refusal::Projection));
    index.add(0, &[1.0]).unwrap();
    assert_eq!(index.search_once(&[2.0], Query::new(1, 1, 0)), Err(Refusal::Projection));
}

#[test]
fn searches_are_refused_in_their_order() {
    let mut index = small(Mode::Full);
    index.add(9, &[1.0, 0.0]).unwrap();
    let mut work = index.work();
    let mut search = |target: &[f32], k, search_k| index.search(&mut work, target, Query::new(k, search_k, 0));
    let nan = [f32::NAN, 0.0];
    for k in [MAX_K + 1, MAX_K + 2, usize::MAX] {
        assert_eq!(search(&nan[..1], k, 1), Err(Refusal::Length));
        assert_eq!(search(&nan, k, 1), Err(Refusal::K));
        assert_eq!(index.scan(&nan[..1], Scan::new(k)), Err(Refusal::Length));
        assert_eq!(index.scan(&nan, Scan::new(k)), Err(Refusal::K));
    }
    assert_eq!(search(&nan, MAX_K, 1), Err(Refusal::NotFinite));
    assert_eq!(search(&[1.0, 0.0], 1, 2), Err(Refusal::NoLayer));
    assert_eq!(index.scan(&nan, Scan::new(MAX_K)), Err(Refusal::NotFinite));
    let none = search(&[1.0, 0.0], 0, 1).unwrap();
    assert_eq!((pairs(&none), none.checked), (vec![], 1));
    // after all that the same work memory serves as at first
    let one = search(&[1.0, 0.0], 1, 1).unwrap();
    assert_eq!((pairs(&one), one.checked), (vec![(9, 0.0)], 1));
}

#[test]
fn an_id_that_is_added_again_gets_the_new_vector() {
    let mut index = small(Mode::Full);
    index.add(4, &[1.0, 0.0]).unwrap();
    index.add(4, &[0.0, 1.0]).unwrap();
    assert_eq!(index.len(), 1);
    // found on both faces, at the distance of the new vector
    let old = index.search_once(&[1.0, 0.0], Query::new(1, 1, 0)).unwrap();
    let new = index.search_once(&[0.0, 1.0], Query::new(1, 1, 0)).unwrap();
    assert_eq!((pairs(&old), pairs(&new)), (vec![(4, 2f32.sqrt())], vec![(4, 0.0)]));
}

#[test]
fn debug_is_short() {
    let mut index = Index::new(1024, 2, 65536, Mode::Half).unwrap();
    assert_eq!(format!("{index:?}"), "Index { dimensions: 1024, bases: 2, capacity: 65536, mode: Half, len: 0, .. }");
    index.add(70, &[1.0; 1024]).unwrap();
    assert_eq!(format!("{index:?}"), "Index { dimensions: 1024, bases: 2, capacity: 65536, mode: Half, len: 1, .. }");
    assert_eq!(format!("{:?}", index.work()), "Work { dimensions: 1024, bases: 2, capacity: 65536, .. }");
}
