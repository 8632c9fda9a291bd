//! One index, many threads; and the work memory that each brings.
mod common;

use bbqvec::{Found, Index, Mode, Query, Refusal, Scan, Work, MAX_K};
use common::Numbers;

fn shared<T: Send + Sync>() {}

#[test]
fn threads_can_share_everything() {
    shared::<Index>();
    shared::<Work>();
    shared::<Found>();
    shared::<Refusal>();
}

#[test]
fn threads_that_share_an_index_find_what_one_finds() {
    let mut numbers = Numbers(99);
    let mut index = numbers.index(8, 4, 512, Mode::Half);
    for id in 0..400 {
        index.add(id, &numbers.vector(8)).unwrap();
    }
    let asked: Vec<(Vec<f32>, Query)> =
        (0..200).map(|_| (numbers.vector(8), Query::new(numbers.below(40), numbers.below(200), numbers.below(9)))).collect();
    let index = &index;
    let answers = |work: &mut Work| -> Vec<_> {
        asked.iter().map(|(target, query)| (index.search(work, target, *query), index.scan(target, Scan::new(query.k)))).collect()
    };
    let expected = answers(&mut index.work());
    assert!(expected.iter().any(|(found, _)| found.is_err()) && expected.iter().any(|(found, _)| found.is_ok()));
    let (answers, expected) = (&answers, &expected);
    std::thread::scope(|threads| {
        for _ in 0..4 {
            threads.spawn(move || {
                let mut work = index.work();
                for _ in 0..5 {
                    assert_eq!(&answers(&mut work), expected);
                }
            });
        }
    });
}

#[test]
fn work_memory_serves_one_geometry_in_either_mode() {
    let mut index = Index::new(2, 3, 128, Mode::Full).unwrap();
    index.add(100, &[1.0, 0.0]).unwrap();
    let (target, query) = ([1.0, 0.0], Query::new(1, 1, 0));
    let expected = index.search_once(&target, query);
    assert_eq!(expected.as_ref().unwrap().entries[0].id, 100);
    let work = |d, n, capacity, mode| Index::new(d, n, capacity, mode).unwrap().work();
    assert_eq!(index.search(&mut work(2, 3, 128, Mode::Half), &target, query), expected);
    // the last two have as many words of layers as the index needs
    for mut other in [
        work(3, 3, 128, Mode::Full),
        work(2, 2, 128, Mode::Full),
        work(2, 3, 64, Mode::Full),
        work(2, 6, 64, Mode::Full),
        work(2, 1, 384, Mode::Full),
    ] {
        assert_eq!(index.search(&mut other, &target, query), Err(Refusal::Length));
        // 2 comes before 4 and 5
        assert_eq!(index.search(&mut other, &[f32::NAN; 2], Query::new(MAX_K + 1, 1, 0)), Err(Refusal::Length));
    }
}
