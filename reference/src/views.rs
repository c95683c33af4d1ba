//! Views: a cube as a stretch of the caller's own bytes.

use std::ops::Range;

use crate::answer::Refusal;
use crate::cube::Cube;
use crate::region::Region;

/// The stretch of the file that holds cube i (0 is the base) of difference d.
pub fn view(file: &[u8], d: u64, i: u64) -> Result<Range<usize>, Refusal> {
    let region = Region::read(1, file)?;
    let none = Refusal::plain(23);
    let d = usize::try_from(d).map_err(|_| none)?;
    let i = usize::try_from(i).map_err(|_| none)?;
    let difference = region.differences.get(d).ok_or(none)?;
    if i > difference.cuts.len() {
        return Err(none);
    }
    let length = Cube::length(region.w);
    // A kind 2 record has five bytes before its base: length, kind and count.
    let start = region.offset(d) + 5 + i * length;
    Ok(start..start + length)
}

/// The lent bytes of the wider of two cubes; None if neither holds the other.
pub fn wider<'a>(
    (a, first): (&'a [u8], &Cube),
    (b, second): (&'a [u8], &Cube),
) -> Option<&'a [u8]> {
    if first.holds(second) {
        Some(a)
    } else if second.holds(first) {
        Some(b)
    } else {
        None
    }
}
