//! A header: W bits, kept as a string of 0 and 1 with position 0 leftmost.

/// The greatest W.
pub const GREATEST_W: usize = 320;

#[derive(Clone, Debug, PartialEq, Eq)]
pub struct Header(pub Vec<u8>);

impl Header {
    /// The bytes that a header of W bits takes.
    pub fn length(w: usize) -> usize {
        w.div_ceil(8)
    }

    /// None is 11: the wrong length, or an unused bit that is not zero.
    pub fn read(w: usize, bytes: &[u8]) -> Option<Header> {
        if bytes.len() != Header::length(w) {
            return None;
        }
        let bit = |p: usize| bytes[p / 8] >> (7 - p % 8) & 1;
        let unused_are_zero = (w..8 * bytes.len()).all(|p| bit(p) == 0);
        unused_are_zero.then(|| Header((0..w).map(|p| b'0' + bit(p)).collect()))
    }

    pub fn bytes(&self) -> Vec<u8> {
        let mut bytes = vec![0; Header::length(self.0.len())];
        for (p, bit) in self.0.iter().enumerate() {
            bytes[p / 8] |= (bit - b'0') << (7 - p % 8);
        }
        bytes
    }
}
