//! Intersection and subtraction of differences, untidied.

use crate::difference::Difference;

/// The bases meet; cuts of the first, then of the second. None if the bases share no header.
pub fn intersect(first: &Difference, second: &Difference) -> Option<Difference> {
    let base = first.base.meet(&second.base)?;
    let cuts = first.cuts.iter().chain(&second.cuts).cloned().collect();
    Some(Difference { base, cuts })
}

/// The pieces of a less A minus b less b1..bk with their numbers: 0 is a less A and b; j is a meet
/// bj less A, where a and bj share a header. Where they share none there is no piece j.
pub fn numbered_pieces(first: &Difference, second: &Difference) -> Vec<(usize, Difference)> {
    let mut without = first.clone();
    without.cuts.push(second.base.clone());
    let restored = second.cuts.iter().zip(1..).filter_map(|(cut, j)| {
        Some((j, Difference { base: first.base.meet(cut)?, cuts: first.cuts.clone() }))
    });
    std::iter::once((0, without)).chain(restored).collect()
}

/// The first less the second, piece by piece.
pub fn subtract(first: &Difference, second: &Difference) -> Vec<Difference> {
    numbered_pieces(first, second).into_iter().map(|(_, piece)| piece).collect()
}
