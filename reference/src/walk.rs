//! The walk over pieces, its allowance and its ceiling.

use std::collections::BTreeSet;

use crate::answer::{index, Answer, NONE_DECIDED};
use crate::cube::{opposite, Cube};
use crate::difference::Difference;
use crate::header::Header;

/// What is allowed and what is spent of it, in pieces.
struct Allowance {
    allowed: u32,
    spent: u32,
}

/// Why a walk stops before its end.
enum Stop {
    Member(Header),
    Undecided,
}

impl Allowance {
    fn spend(&mut self) -> Result<(), Stop> {
        if self.spent == self.allowed {
            return Err(Stop::Undecided);
        }
        self.spent += 1;
        Ok(())
    }
}

/// Walks the differences, each with its number, one after another on one allowance, to the first
/// member. The answer is 1 (empty), 2 with a header, or 3; the last two have the number of the
/// difference whose member is shown, or whose next visit the allowance cannot pay.
pub fn walk(differences: impl IntoIterator<Item = (usize, Difference)>, allowed: u32) -> Answer {
    let mut allowance = Allowance { allowed, spent: 0 };
    let mut stop = None;
    for (place, difference) in differences {
        if let Err(why) = visit(&difference.base, &difference.cuts, &mut allowance) {
            stop = Some((why, index(place)));
            break;
        }
    }
    let (number, count, bytes, index) = match stop {
        None => (1, allowance.spent, Vec::new(), NONE_DECIDED),
        Some((Stop::Member(header), index)) => (2, allowance.spent, header.bytes(), index),
        Some((Stop::Undecided, index)) => (3, allowed, Vec::new(), index),
    };
    Answer { number, count, bytes, index }
}

/// Visits a piece with cuts left. It comes back without a stop if the piece is covered.
fn visit(piece: &Cube, cuts: &[Cube], allowance: &mut Allowance) -> Result<(), Stop> {
    allowance.spend()?;
    let Some(next) = cuts.iter().position(|cut| cut.meets(piece)) else {
        return Err(Stop::Member(piece.lowest_header()));
    };
    let (cut, after) = (&cuts[next], &cuts[next + 1..]);
    // One copy serves all narrower pieces: having differed at a position, it then agrees there.
    let mut narrower = piece.clone();
    for position in piece.open_positions(cut) {
        narrower.0[position] = opposite(cut.0[position]);
        visit(&narrower, after, allowance)?;
        narrower.0[position] = cut.0[position];
    }
    Ok(())
}

/// The smaller of the two bounds.
pub fn ceiling(difference: &Difference) -> u32 {
    cut_by_cut(difference).min(by_positions(difference))
}

fn meeting(difference: &Difference) -> impl DoubleEndedIterator<Item = &Cube> {
    difference.cuts.iter().filter(|cut| cut.meets(&difference.base))
}

/// 1 + f1 (1 + f2 (... (1 + fk times 1))) over the cuts that meet the base, in their order; f is
/// the number of positions that the cut fixes and the base leaves free.
pub fn cut_by_cut(difference: &Difference) -> u32 {
    meeting(difference).rev().fold(1, |inner: u32, cut| {
        let f = difference.base.open_positions(cut).count() as u32;
        f.saturating_mul(inner).saturating_add(1)
    })
}

/// 1 + k times 2 to the power s, where k cuts meet the base and s is the number of positions that
/// the base leaves free and at least one of these cuts fixes.
pub fn by_positions(difference: &Difference) -> u32 {
    let opened = |cut| difference.base.open_positions(cut);
    let positions: BTreeSet<usize> = meeting(difference).flat_map(opened).collect();
    let k = meeting(difference).count() as u32;
    let s = positions.len() as u32;
    2u32.saturating_pow(s).saturating_mul(k).saturating_add(1)
}
