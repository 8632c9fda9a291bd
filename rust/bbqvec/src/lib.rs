//! A vector index whose calls are proved, safe to use from Rust. An [`Index`] owns the memory that the calls are lent, so no length of it can be
//! wrong. What is refused comes back as a [`Refusal`], and leaves the index as it was.
//!
//! ```
//! use bbqvec::{normalize, Index, Mode, Query};
//!
//! let mut index = Index::new(2, 1, 64, Mode::Full)?; // dimensions, bases, capacity
//! index.set_basis(0, &[1.0, 0.0, 0.0, 1.0])?;
//! index.add(7, &[3.0, 0.0])?;
//! index.add(9, &[4.0, 3.0])?;
//! let mut target = [2.0, 0.0];
//! normalize(&mut target)?;
//! let found = index.search(&mut index.work(), &target, Query::new(256, 1, 0))?;
//! let nearest = found.entries.last().expect("search_k 1 finds one at least");
//! assert_eq!((nearest.id, nearest.score, found.checked), (7, 0.0, 2));
//! # Ok::<(), bbqvec::Refusal>(())
//! ```
//!
//! # What a list has
//!
//! A search chooses candidates, gives each a score and lists `k` of them. The score is a distance, and **the larger score comes first**; of equal
//! scores the lower id comes first. So a list begins with the candidate that is farthest from the target, and of more candidates than `k` it has
//! the `k` farthest: the nearest are left out. A scan does the same with every vector that is held.
//!
//! [`Found::checked`] says how many were ranked. Where it is at most `k`, all of them are listed, and the nearest is the last entry.
//!
//! ```
//! # use bbqvec::{Index, Mode, Query};
//! # let mut index = Index::new(2, 1, 64, Mode::Full)?;
//! # index.set_basis(0, &[1.0, 0.0, 0.0, 1.0])?;
//! # let mut work = index.work();
//! for (id, vector) in [(1, [1.0, 0.0]), (2, [4.0, 3.0]), (3, [12.0, 5.0])] {
//!     index.add(id, &vector)?;
//! }
//! let target = [1.0, 0.0]; // vector 1 itself
//! let all = index.search(&mut work, &target, Query::new(3, 1, 0))?;
//! assert_eq!(all.entries.iter().map(|e| e.id).collect::<Vec<_>>(), [2, 3, 1]);
//! let one = index.search(&mut work, &target, Query::new(1, 1, 0))?;
//! assert_eq!((one.entries[0].id, one.checked), (2, 3)); // vector 1 is left out
//! # Ok::<(), bbqvec::Refusal>(())
//! ```
//!
//! # What a score is
//!
//! A score is the Euclidean distance from the target as given to the stored vector. The stored vector is the added one divided by its norm, and in
//! [`Mode::Half`] each component is then rounded to bf16. The target is not divided, so [`normalize`] it first, or the score of a vector with
//! itself is not zero:
//!
//! ```
//! # use bbqvec::{Index, Mode, Scan};
//! # let mut index = Index::new(2, 1, 64, Mode::Full)?;
//! # index.set_basis(0, &[1.0, 0.0, 0.0, 1.0])?;
//! index.add(1, &[4.0, 0.0])?; // stored as (1, 0)
//! assert_eq!(index.scan(&[4.0, 0.0], Scan::new(1))?.entries[0].score, 3.0);
//! assert_eq!(index.scan(&[1.0, 0.0], Scan::new(1))?.entries[0].score, 0.0);
//! # Ok::<(), bbqvec::Refusal>(())
//! ```
//!
//! # Bases
//!
//! A basis is `d` vectors of `d` components. It has `2d` faces: one for each of its vectors and one for each vector's opposite. An added vector
//! lies on one face of each basis: the one for its projection of greatest absolute value. A search looks at the faces of the target, so the bases
//! have to be the same when vectors are added, when they are searched for, and in all indexes that are to be merged. Once
//! something was added or merged in, an index keeps its bases; [`Index::merge`] compares them.
//!
//! Bases are zeros until they are set, and used as given. The published bbqvec takes random numbers and orthonormalises them in one round.
//! [`orthonormalize`] gives the same bits for the same numbers on every machine.
//!
//! # `search_k` and `spill`
//!
//! 1. In each basis the target's `spill + 1` faces of greatest absolute projection are picked, and the ids on them are joined to one set. A
//!    `spill` at or above `d` counts as `d - 1`.
//! 2. The `n` sets are counted in `n` layers. Layer `i`, from 0, holds the ids that more than `i` of the bases agree on.
//! 3. The candidates are the ids of the highest layer that has at least `search_k` of them. They are ranked by rising id. Where no layer has as
//!    many, the search is refused with [`Refusal::NoLayer`], number 8. With `search_k` 0 the last layer is taken, even if it is empty.
//!
//! A larger `search_k` takes the same layer or a lower one: the same candidates and possibly more, on which fewer bases agree. A larger `spill`
//! looks at more faces in each basis. It takes no id out of any layer, but it may fill a higher layer so far that this one is chosen, and then the
//! list can get shorter.
//!
//! To choose them, begin with `k` 256, the number of neighbours you need as `search_k`, and `spill` 0. Where the search is refused with 8 or finds
//! poor neighbours, raise `spill`. Where [`Found::checked`] is more than 256, the nearest are left out: lower `search_k`, so that a higher layer
//! with fewer ids will do. An index with more bases has more layers to choose from.
//!
//! # Threads
//!
//! [`Index::search`] and [`Index::scan`] take `&self`, so threads can share an index. A search works in a [`Work`], one for each thread:
//!
//! ```
//! # use bbqvec::{Index, Mode, Query};
//! # let mut index = Index::new(2, 1, 64, Mode::Full)?;
//! # index.set_basis(0, &[1.0, 0.0, 0.0, 1.0])?;
//! # index.add(7, &[3.0, 0.0])?;
//! # index.add(9, &[0.0, 1.0])?;
//! let index = &index;
//! std::thread::scope(|threads| {
//!     for target in [[1.0, 0.0], [0.0, 1.0]] {
//!         threads.spawn(move || {
//!             let mut work = index.work();
//!             let found = index.search(&mut work, &target, Query::new(8, 1, 0)).unwrap();
//!             assert_eq!(found.entries[0].score, 0.0);
//!         });
//!     }
//! });
//! # Ok::<(), bbqvec::Refusal>(())
//! ```
//!
//! # What is proved, and what is assumed
//!
//! The calls below this crate are proved; the crate itself is tested. What is proved assumes the floating-point environment that Rust starts every
//! thread with: rounding to nearest, ties to even, and subnormal numbers kept, neither flushed to zero nor read as zero. Code in another language
//! can change that for a thread. Do not call an index from such a thread: its answers can differ there.
#![warn(missing_docs)]
#![deny(unsafe_code)]
#![forbid(unsafe_op_in_unsafe_fn)]

mod calls;
mod index;
mod numbers;
mod query;
mod refusal;
mod work;

pub use index::{Index, Mode};
pub use numbers::{lower, normalize, orthonormalize, sqrt, widen};
pub use query::{Entry, Found, Query, Scan, MAX_K};
pub use refusal::Refusal;
pub use work::Work;

/// The readme's examples are tested with the others.
#[cfg(doctest)]
#[doc = include_str!("../README.md")]
struct Readme;
