//! Prefix constraints and equality of two fields.

use crate::answer::{Answer, Outcome, Refusal};
use crate::cube::Cube;
use crate::difference::{Difference, MOST_CUTS};
use crate::header::Header;
use crate::record;

/// Whether a field that starts at s and has n positions lies within W.
fn within(w: usize, s: u64, n: u64) -> bool {
    n >= 1 && s.checked_add(n).is_some_and(|end| end <= w as u64)
}

/// 21, 11, 22, for a W within its bounds.
pub fn prefix(w: usize, s: u64, n: u64, m: u64, value: &[u8], room: usize) -> Outcome {
    if !within(w, s, n) || m > n {
        return Err(Refusal::plain(21));
    }
    // Within W, these numbers are small.
    let (s, n, m) = (s as usize, n as usize, m as usize);
    let field = Header::read(n, value).ok_or(Refusal::plain(11))?;
    let (prefix, after) = field.0.split_at(m);
    if after.contains(&b'1') {
        return Err(Refusal::plain(11));
    }
    let mut cube = Cube::all_free(w);
    cube.0[s..s + m].copy_from_slice(prefix);
    Answer::written(cube.bytes(), room)
}

/// 21, 18, 22, for a W within its bounds.
pub fn equal_fields(w: usize, s1: u64, s2: u64, n: u64, room: usize) -> Outcome {
    if !within(w, s1, n) || !within(w, s2, n) {
        return Err(Refusal::plain(21));
    }
    let (s1, s2, n) = (s1 as usize, s2 as usize, n as usize);
    let cuts = if s1 == s2 { Vec::new() } else { unequal(w, s1, s2, n) };
    if cuts.len() > MOST_CUTS {
        return Err(Refusal::plain(18));
    }
    let base = Cube::all_free(w);
    Answer::written(record::kind_2(&Difference { base, cuts }), room)
}

/// For each position of the fields, the cut with 0 in the first and 1 in the second, then 1 and 0.
fn unequal(w: usize, s1: usize, s2: usize, n: usize) -> Vec<Cube> {
    let cut = |i: usize, first: u8, second: u8| {
        let mut cube = Cube::all_free(w);
        cube.0[s1 + i] = first;
        cube.0[s2 + i] = second;
        cube
    };
    let both = |i: usize| [cut(i, b'0', b'1'), cut(i, b'1', b'0')];
    (0..n).flat_map(both).collect()
}
