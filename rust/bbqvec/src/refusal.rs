//! Why a call was refused.
use std::error::Error;
use std::fmt;

/// Why a call was refused. A refusal leaves the index as it was.
///
/// Most are numbers that the proved calls answer, and [`number`](Refusal::number) gives them back. [`OtherBases`](Refusal::OtherBases) is the
/// wrapper's own and has none.
#[derive(Clone, Copy, Debug, PartialEq, Eq, Hash)]
#[non_exhaustive]
pub enum Refusal {
    /// 1: dimensions, number of bases, capacity, a basis's number or a number of rounds is out of range; two indexes to merge have different
    /// geometries; or a basis is set after something was added or merged in.
    Geometry,
    /// 2: a vector, a target or a basis has the wrong length, or a [`Work`](crate::Work) is of another geometry.
    Length,
    /// 3: an id is not below the capacity.
    Id,
    /// 4: more than [`MAX_K`](crate::MAX_K) entries were asked for.
    K,
    /// 5: a component of a given vector, target or basis is infinite or NaN.
    NotFinite,
    /// 6: a vector cannot be brought to length 1: its norm is 0 or not finite, or a quotient is not finite.
    NoNorm,
    /// 7: an entry of a projection on a basis is not finite.
    Projection,
    /// 8: no counting layer has `search_k` ids.
    NoLayer,
    /// 9: a candidate has no vector. No index of this wrapper gets there.
    NoMark,
    /// 10: a score is NaN. No index of this wrapper gets there, since it stores only finite components.
    NanScore,
    /// 11: both indexes to merge hold some id.
    SharedId,
    /// 12: a result set can count no further entry. No call of this wrapper gives it.
    FullCount,
    /// 13: a result set is not well formed. No call of this wrapper gives it.
    BadSet,
    /// 14: recall was asked for at 0. No call of this wrapper gives it.
    NoRecall,
    /// 15: a record of the search program has a bad frame or an unknown kind. No call of this wrapper gives it.
    BadRecord,
    /// The two indexes to merge have different bases. This one is the wrapper's own: it has no number.
    OtherBases,
    /// A number that has no name here. Another version may name it, so ask for [`number`](Refusal::number) rather than match this.
    Other(u32),
}

/// Those with a number, by their numbers from 1.
const NUMBERED: [Refusal; 15] = [
    Refusal::Geometry,
    Refusal::Length,
    Refusal::Id,
    Refusal::K,
    Refusal::NotFinite,
    Refusal::NoNorm,
    Refusal::Projection,
    Refusal::NoLayer,
    Refusal::NoMark,
    Refusal::NanScore,
    Refusal::SharedId,
    Refusal::FullCount,
    Refusal::BadSet,
    Refusal::NoRecall,
    Refusal::BadRecord,
];

impl Refusal {
    /// The number that the calls answer for it; none for a refusal of the wrapper's own.
    ///
    /// ```
    /// use bbqvec::Refusal;
    /// assert_eq!(Refusal::NoLayer.number(), Some(8));
    /// assert_eq!(Refusal::OtherBases.number(), None);
    /// ```
    pub const fn number(self) -> Option<u32> {
        Some(match self {
            Refusal::Geometry => 1,
            Refusal::Length => 2,
            Refusal::Id => 3,
            Refusal::K => 4,
            Refusal::NotFinite => 5,
            Refusal::NoNorm => 6,
            Refusal::Projection => 7,
            Refusal::NoLayer => 8,
            Refusal::NoMark => 9,
            Refusal::NanScore => 10,
            Refusal::SharedId => 11,
            Refusal::FullCount => 12,
            Refusal::BadSet => 13,
            Refusal::NoRecall => 14,
            Refusal::BadRecord => 15,
            Refusal::OtherBases => return None,
            Refusal::Other(number) => number,
        })
    }

    /// The refusal of a number; none for 0, which is acceptance. A number without a name becomes [`Refusal::Other`].
    pub fn of(number: u32) -> Option<Refusal> {
        let place = number.checked_sub(1)?;
        Some(NUMBERED.get(place as usize).copied().unwrap_or(Refusal::Other(number)))
    }

    /// The sentence that [`Display`](fmt::Display) gives after the number.
    fn why(self) -> &'static str {
        match self {
            Refusal::Geometry => {
                "the geometry, a basis's number or the number of rounds is out of range, the geometries differ, or the bases are settled"
            }
            Refusal::Length => "a vector, a target, a basis or the work memory has the wrong length",
            Refusal::Id => "the id is not below the capacity",
            Refusal::K => "more than 256 entries were asked for",
            Refusal::NotFinite => "a component is not finite",
            Refusal::NoNorm => "a vector cannot be brought to length 1: its norm is 0 or not finite, or a quotient is not finite",
            Refusal::Projection => "an entry of a projection is not finite",
            Refusal::NoLayer => "no counting layer has as many ids as asked for",
            Refusal::NoMark => "a candidate has no present mark",
            Refusal::NanScore => "a score is NaN",
            Refusal::SharedId => "both indexes hold some id",
            Refusal::FullCount => "the result set can count no further entry",
            Refusal::BadSet => "the result set is not well formed",
            Refusal::NoRecall => "recall was asked for at 0",
            Refusal::BadRecord => "a record's frame is bad, or its kind is unknown",
            Refusal::OtherBases => "the two indexes have different bases",
            Refusal::Other(_) => "this version has no name for the number",
        }
    }
}

impl fmt::Display for Refusal {
    fn fmt(&self, f: &mut fmt::Formatter<'_>) -> fmt::Result {
        match self.number() {
            Some(number) => write!(f, "refused {number}: {}", self.why()),
            None => write!(f, "refused: {}", self.why()),
        }
    }
}

impl Error for Refusal {}
