//! A cube: each position 0, 1 or free, kept as a string of 0, 1 and x with position 0 leftmost.

use crate::answer::Number;
use crate::header::Header;

pub const FREE: u8 = b'x';

#[derive(Clone, Debug, PartialEq, Eq)]
pub struct Cube(pub Vec<u8>);

impl Cube {
    pub fn all_free(w: usize) -> Cube {
        Cube(vec![FREE; w])
    }

    /// The bytes that a cube of W positions takes.
    pub fn length(w: usize) -> usize {
        w.div_ceil(4)
    }

    /// Refused by 12, 13 or 14, in this order.
    pub fn read(w: usize, bytes: &[u8]) -> Result<Cube, Number> {
        if bytes.len() != Cube::length(w) {
            return Err(12);
        }
        let code = |p: usize| bytes[p / 4] >> (2 * (3 - p % 4)) & 3;
        if (0..w).any(|p| code(p) == 0) {
            return Err(13);
        }
        if (w..4 * bytes.len()).any(|place| code(place) != 3) {
            return Err(14);
        }
        Ok(Cube((0..w).map(|p| value_of(code(p))).collect()))
    }

    pub fn bytes(&self) -> Vec<u8> {
        // Unused places hold 3, so all places start as free.
        let mut bytes = vec![0xFF; Cube::length(self.0.len())];
        for (p, &value) in self.0.iter().enumerate() {
            bytes[p / 4] ^= (3 ^ code_of(value)) << (2 * (3 - p % 4));
        }
        bytes
    }

    pub fn w(&self) -> usize {
        self.0.len()
    }

    /// Whether the header is in the cube.
    pub fn has(&self, header: &Header) -> bool {
        let mut both = self.0.iter().zip(&header.0);
        both.all(|(&value, &bit)| value == FREE || value == bit)
    }

    /// Whether the cubes share a header.
    pub fn meets(&self, other: &Cube) -> bool {
        let mut both = self.0.iter().zip(&other.0);
        both.all(|(&a, &b)| a == b || a == FREE || b == FREE)
    }

    /// The cube of the headers in both, if they share any.
    pub fn meet(&self, other: &Cube) -> Option<Cube> {
        let both = self.0.iter().zip(&other.0);
        let narrower = |(&a, &b): (&u8, &u8)| if a == FREE { b } else { a };
        self.meets(other).then(|| Cube(both.map(narrower).collect()))
    }

    /// Whether every header of the other is in this cube.
    pub fn holds(&self, other: &Cube) -> bool {
        let mut both = self.0.iter().zip(&other.0);
        both.all(|(&a, &b)| a == FREE || a == b)
    }

    /// From left to right, the positions that the cut fixes and this cube leaves free.
    pub fn open_positions<'a>(&'a self, cut: &'a Cube) -> impl Iterator<Item = usize> + 'a {
        (0..self.w()).filter(|&p| self.0[p] == FREE && cut.0[p] != FREE)
    }

    /// The header of the cube with all its free positions 0.
    pub fn lowest_header(&self) -> Header {
        let bit = |&value: &u8| if value == FREE { b'0' } else { value };
        Header(self.0.iter().map(bit).collect())
    }
}

/// The other value of a fixed position.
pub fn opposite(value: u8) -> u8 {
    match value {
        b'0' => b'1',
        b'1' => b'0',
        _ => panic!("a free position has no opposite value"),
    }
}

fn value_of(code: u8) -> u8 {
    match code {
        1 => b'0',
        2 => b'1',
        3 => FREE,
        _ => panic!("code 0 is refused before"),
    }
}

fn code_of(value: u8) -> u8 {
    match value {
        b'0' => 1,
        b'1' => 2,
        FREE => 3,
        _ => panic!("a cube is a string of 0, 1 and x"),
    }
}
