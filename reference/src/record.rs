//! Records: a length, a kind and a body.

use crate::answer::Number;
use crate::cube::Cube;
use crate::difference::{Difference, MOST_CUTS};
use crate::header::GREATEST_W;

/// The bytes of a kind 1 record.
pub const KIND_1_BYTES: usize = 6;

/// A record whose length and kind are read and whose body is not.
pub struct Record<'a> {
    body: &'a [u8],
    /// Where the record ends in the bytes it was read from.
    pub end: usize,
}

impl<'a> Record<'a> {
    /// Reads up to the kind: 15, a length below 2 (17), 16.
    pub fn read(bytes: &'a [u8], offset: usize, kind: u16) -> Result<Record<'a>, Number> {
        let rest = bytes.get(offset..).ok_or(15)?;
        let length = usize::from(little_endian(rest).ok_or(15)?);
        let end = offset + 2 + length;
        let content = bytes.get(offset + 2..end).ok_or(15)?;
        if little_endian(content).ok_or(17)? != kind {
            return Err(16);
        }
        let body = &content[2..];
        Ok(Record { body, end })
    }

    /// The W of a kind 1 record: 17, 10.
    pub fn w(&self) -> Result<usize, Number> {
        if self.body.len() != 2 {
            return Err(17);
        }
        let w = usize::from(little_endian(self.body).ok_or(17)?);
        if !(1..=GREATEST_W).contains(&w) {
            return Err(10);
        }
        Ok(w)
    }

    /// The difference of a kind 2 record: a length below 3 (17), 18, 17, then base and cuts, each
    /// 13 before 14. Bytes that may not follow the record are found with the second 17.
    pub fn difference(&self, w: usize, bytes_follow: bool) -> Result<Difference, Number> {
        let (&count, cubes) = self.body.split_first().ok_or(17)?;
        let count = usize::from(count);
        if count > MOST_CUTS {
            return Err(18);
        }
        if cubes.len() != (count + 1) * Cube::length(w) || bytes_follow {
            return Err(17);
        }
        let mut cubes = cubes.chunks(Cube::length(w));
        let base = Cube::read(w, cubes.next().ok_or(17)?)?;
        let cuts = cubes.map(|cut| Cube::read(w, cut)).collect::<Result<_, _>>()?;
        Ok(Difference { base, cuts })
    }
}

/// The number in the first two bytes.
fn little_endian(bytes: &[u8]) -> Option<u16> {
    Some(u16::from_le_bytes([*bytes.first()?, *bytes.get(1)?]))
}

/// A difference lent as one kind 2 record, with W beside it.
pub fn read_single(w: usize, bytes: &[u8]) -> Result<Difference, Number> {
    let record = Record::read(bytes, 0, 2)?;
    record.difference(w, record.end < bytes.len())
}

pub fn kind_1(w: u16) -> Vec<u8> {
    framed(1, &w.to_le_bytes())
}

/// The difference has at most 255 cuts: the writers refuse it, or the tests want it refused.
pub fn kind_2(difference: &Difference) -> Vec<u8> {
    let count = u8::try_from(difference.cuts.len()).expect("a count byte");
    let mut body = vec![count];
    body.extend(difference.base.bytes());
    body.extend(difference.cuts.iter().flat_map(Cube::bytes));
    framed(2, &body)
}

/// The bytes of the difference's kind 2 record.
pub fn kind_2_bytes(difference: &Difference) -> usize {
    5 + (difference.cuts.len() + 1) * Cube::length(difference.base.w())
}

fn framed(kind: u16, body: &[u8]) -> Vec<u8> {
    let length = u16::try_from(2 + body.len()).expect("a record's length has two bytes");
    let mut bytes = length.to_le_bytes().to_vec();
    bytes.extend(kind.to_le_bytes());
    bytes.extend(body);
    bytes
}
