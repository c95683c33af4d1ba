//! A difference: a base and the cuts taken from it.

use crate::cube::Cube;
use crate::header::Header;

/// The most cuts of a difference that is read or written.
pub const MOST_CUTS: usize = 64;

#[derive(Clone, Debug, PartialEq, Eq)]
pub struct Difference {
    pub base: Cube,
    pub cuts: Vec<Cube>,
}

impl Difference {
    /// Whether the header is in the base and in no cut.
    pub fn has(&self, header: &Header) -> bool {
        self.base.has(header) && !self.cuts.iter().any(|cut| cut.has(header))
    }
}
