//! A region and its file: one kind 1 record, then kind 2 records to the end.

use crate::answer::{Number, Refusal};
use crate::difference::Difference;
use crate::header::Header;
use crate::record::{self, Record, KIND_1_BYTES};

/// The most differences of a region that is read or written.
pub const MOST_DIFFERENCES: usize = 256;

#[derive(Clone, Debug, PartialEq, Eq)]
pub struct Region {
    pub w: usize,
    pub differences: Vec<Difference>,
}

impl Region {
    /// The number of the first difference that has the header.
    pub fn first_with(&self, header: &Header) -> Option<usize> {
        self.differences.iter().position(|d| d.has(header))
    }

    /// Reads the whole file; the refusal has the offset of the record at fault.
    pub fn read(operand: u8, file: &[u8]) -> Result<Region, Refusal> {
        let w = read_w(file).map_err(|number| Refusal::at(number, operand, 0))?;
        let mut differences = Vec::new();
        let mut offset = KIND_1_BYTES;
        while offset < file.len() {
            let (difference, end) = read_next(file, offset, w, differences.len())
                .map_err(|number| Refusal::at(number, operand, offset))?;
            differences.push(difference);
            offset = end;
        }
        Ok(Region { w, differences })
    }

    pub fn file(&self) -> Vec<u8> {
        let mut bytes = record::kind_1(u16::try_from(self.w).expect("W has two bytes"));
        bytes.extend(self.differences.iter().flat_map(record::kind_2));
        bytes
    }

    /// Where the record of a difference starts in the file.
    pub fn offset(&self, difference: usize) -> usize {
        let before = self.differences[..difference].iter();
        KIND_1_BYTES + before.map(record::kind_2_bytes).sum::<usize>()
    }
}

/// The W of the file's kind 1 record.
pub fn read_w(file: &[u8]) -> Result<usize, Number> {
    Record::read(file, 0, 1)?.w()
}

/// The difference at this offset after so many others, and where its record ends.
fn read_next(
    file: &[u8],
    offset: usize,
    w: usize,
    before: usize,
) -> Result<(Difference, usize), Number> {
    let record = Record::read(file, offset, 2)?;
    if before == MOST_DIFFERENCES {
        return Err(19);
    }
    Ok((record.difference(w, false)?, record.end))
}
