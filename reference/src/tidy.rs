//! Tidying, and writing a tidied result.

use crate::answer::{Answer, Outcome, Refusal};
use crate::difference::{Difference, MOST_CUTS};
use crate::region::{Region, MOST_DIFFERENCES};

/// The tidied difference; None if it is omitted.
pub fn tidy(difference: &Difference) -> Option<Difference> {
    let base = &difference.base;
    let mut kept = Vec::new();
    for cut in &difference.cuts {
        let Some(met) = cut.meet(base) else { continue };
        if met == *base {
            return None;
        }
        if !kept.contains(&met) {
            kept.push(met);
        }
    }
    Some(Difference { base: base.clone(), cuts: kept })
}

/// Tidies a result and writes it as a region file: 18, 19, 22.
pub fn write(w: usize, result: impl Iterator<Item = Difference>, room: usize) -> Outcome {
    let mut differences = Vec::new();
    let mut too_many = false;
    for difference in result.filter_map(|d| tidy(&d)) {
        if difference.cuts.len() > MOST_CUTS {
            return Err(Refusal::plain(18));
        }
        // The rest is not kept but still looked at, since 18 comes before 19.
        if differences.len() < MOST_DIFFERENCES {
            differences.push(difference);
        } else {
            too_many = true;
        }
    }
    if too_many {
        return Err(Refusal::plain(19));
    }
    Answer::written(Region { w, differences }.file(), room)
}
