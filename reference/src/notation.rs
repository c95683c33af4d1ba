//! The notation of the readings, as hex digits: cubes and headers drawn as strings, with * free.

use crate::cube::{Cube, FREE};
use crate::difference::Difference;
use crate::header::Header;
use crate::hex;
use crate::record;

/// The cube drawn as a string.
pub fn cube(drawing: &str) -> Cube {
    let value = |character| if character == b'*' { FREE } else { character };
    Cube(drawing.bytes().map(value).collect())
}

/// The difference drawn as a base and cuts.
pub fn difference(base: &str, cuts: &[&str]) -> Difference {
    Difference { base: cube(base), cuts: cuts.iter().map(|cut| cube(cut)).collect() }
}

/// A cube's bytes.
pub fn c(drawing: &str) -> String {
    hex::capital(&cube(drawing).bytes())
}

/// A header's bytes.
pub fn h(drawing: &str) -> String {
    hex::capital(&Header(drawing.bytes().collect()).bytes())
}

/// A kind 2 record.
pub fn r(base: &str, cuts: &[&str]) -> String {
    hex::capital(&record::kind_2(&difference(base, cuts)))
}

/// A kind 1 record.
pub fn w1(w: u16) -> String {
    hex::capital(&record::kind_1(w))
}

/// A region file.
pub fn f(w: u16, records: &[String]) -> String {
    w1(w) + &records.concat()
}

/// The bytes of hex digits that may have spaces between them.
pub fn bytes(digits: &str) -> Vec<u8> {
    let digits: Vec<u8> = digits.bytes().filter(|c| *c != b' ').collect();
    hex::read(&digits).expect("hex digits")
}
