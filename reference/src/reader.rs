//! Reading on: one difference after another from a file and a place.

use crate::answer::{Number, Refusal};
use crate::record::{Record, KIND_1_BYTES};
use crate::region::read_w;

/// What one step finds, and the place for the next step.
#[derive(Clone, Copy, Debug, PartialEq, Eq)]
pub struct Step {
    /// The offset of the record read (1), or nothing after the last (2).
    pub found: Result<Option<u64>, Refusal>,
    pub place: u64,
}

pub fn read_on(file: &[u8], place: u64) -> Step {
    match step(file, place) {
        Ok(Some((offset, end))) => Step { found: Ok(Some(offset)), place: end },
        Ok(None) => Step { found: Ok(None), place },
        Err(refusal) => Step { found: Err(refusal), place },
    }
}

/// The offset of the record that this place stands for, and where it ends.
fn step(file: &[u8], place: u64) -> Result<Option<(u64, u64)>, Refusal> {
    let w = read_w(file).map_err(|number| Refusal::at(number, 1, 0))?;
    let offset = if place == 0 { KIND_1_BYTES as u64 } else { place };
    if offset == file.len() as u64 {
        return Ok(None);
    }
    let end =
        record_end(file, offset, w).map_err(|number| Refusal { number, operand: 1, offset })?;
    Ok(Some((offset, end as u64)))
}

/// Where the kind 2 record at this offset ends, once all of it is read.
fn record_end(file: &[u8], offset: u64, w: usize) -> Result<usize, Number> {
    let offset = usize::try_from(offset).map_err(|_| 15)?;
    let record = Record::read(file, offset, 2)?;
    record.difference(w, false)?;
    Ok(record.end)
}
