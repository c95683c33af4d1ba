//! Fixed questions that came with the desk's requests, with the answers that docs/DECISIONS.md
//! gives for them.

mod ceilings;
mod index;

use crate::cases::{case, Case};
use crate::notation::{c, r};

pub fn all() -> Vec<Case> {
    let less_memory = [code_zero(), every_byte(), every_place()];
    let default_route = [whole_field(), every_field(), addresses(), every_bit(), every_length()];
    let earlier = less_memory.into_iter().chain(default_route).flatten();
    earlier.chain(ceilings::all()).chain(index::all()).collect()
}

/// Code 0 at a position is 13, in an unused place 14, and 13 comes first.
fn code_zero() -> Vec<Case> {
    let free = c("***");
    vec![
        case("B70", format!("cube_in 3 CF {free}"), "13 1 0 0 0 65535 -"),
        case("B70", format!("cube_in 3 FC {free}"), "14 1 0 0 0 65535 -"),
        case("B70", format!("cube_in 3 CC {free}"), "13 1 0 0 0 65535 -"),
    ]
}

/// Each of the 256 bytes, spelled code by code, as a cube of one, two, three and four positions.
fn every_byte() -> Vec<Case> {
    let byte = |number: usize| [64, 16, 4, 1].map(|weight| number / weight % 4);
    let right = |w: usize, codes: [usize; 4]| match codes.split_at(w) {
        (positions, _) if positions.contains(&0) => "13 1 0 0 0 65535 -",
        (_, unused) if unused.iter().any(|&code| code != 3) => "14 1 0 0 0 65535 -",
        _ => "1 0 0 0 0 65535 -",
    };
    let asked = |w, [a, b, c, d]: [usize; 4]| {
        let question = format!("cube_in {w} {:X}{:X} FF", 4 * a + b, 4 * c + d);
        case("B70", question, right(w, [a, b, c, d]))
    };
    (1..=4).flat_map(|w| (0..256).map(move |number| asked(w, byte(number)))).collect()
}

/// Code 0 at each position of a wide cube, and in each of its three unused places. A hex digit is
/// two places.
fn every_place() -> Vec<Case> {
    let free = r(&"*".repeat(317), &[]);
    let front = free.len() - 160;
    let asked = |place: usize| {
        let mut record = free.clone();
        let digit = front + place / 2;
        record.replace_range(digit..digit + 1, ["3", "C"][place % 2]);
        let right = if place < 317 { "13 1 0 0 0 65535 -" } else { "14 1 0 0 0 65535 -" };
        case("B70", format!("ceiling 317 {record}"), right)
    };
    (0..320).map(asked).collect()
}

/// A prefix of length 0 leaves every position free; its refusals come in the order of any prefix.
fn whole_field() -> Vec<Case> {
    vec![
        case("B1", "prefix 8 2 4 0 00 2", "0 0 0 0 2 65535 FFFF"),
        case("B1", "prefix 8 2 4 0 - 2", "11 0 0 0 0 65535 -"),
        case("B1", "prefix 8 2 4 0 01 2", "11 0 0 0 0 65535 -"),
        case("B1", "prefix 8 2 0 0 - 2", "21 0 0 0 0 65535 -"),
        case("B1", "prefix 8 5 4 0 80 2", "21 0 0 0 0 65535 -"),
        case("B1", "prefix 0 5 4 0 80 0", "10 0 0 0 0 65535 -"),
        case("B1", "prefix 321 5 4 0 00 81", "10 0 0 0 0 65535 -"),
        case("B1", "prefix 8 18446744073709551615 1 0 00 2", "21 0 0 0 0 65535 -"),
        case("B1", "prefix 8 0 18446744073709551615 0 00 2", "21 0 0 0 0 65535 -"),
        case("B1", "prefix 8 2 4 5 00 2", "21 0 0 0 0 65535 -"),
        case("B1", "prefix 8 2 4 18446744073709551615 00 2", "21 0 0 0 0 65535 -"),
        case("B1", "prefix 8 2 4 0 80 0", "11 0 0 0 0 65535 -"),
        case("B1", "prefix 8 2 4 0 00 1", "22 0 0 0 0 65535 -"),
        case("B1", "prefix 8 2 4 0 00 1048576", "0 0 0 0 2 65535 FFFF"),
    ]
}

/// Every field of the widths 1 to 9, and short and long ones at the end of the greatest.
fn every_field() -> Vec<Case> {
    let asked = |w: usize, s: usize, n: usize| {
        let value = "00".repeat(n.div_ceil(8));
        let size = w.div_ceil(4);
        let question = format!("prefix {w} {s} {n} 0 {value} {size}");
        case("B1", question, format!("0 0 0 0 {size} 65535 {}", "FF".repeat(size)))
    };
    let starts = |w: usize, n: usize| (0..=w - n).map(move |s| asked(w, s, n));
    let narrow = (1..=9).flat_map(|w| (1..=w).flat_map(move |n| starts(w, n)));
    let wide = (317..=320).flat_map(|w| [1, 8, 9, w - 1, w].map(|n| asked(w, w - n, n)));
    narrow.chain(wide).collect()
}

/// 0.0.0.0/0 with its value and without, what it may be mistaken for, and the addresses in it.
fn addresses() -> Vec<Case> {
    let everything = r(&"*".repeat(32), &[]);
    vec![
        case("B1", "prefix 32 0 32 0 00000000 8", "0 0 0 0 8 65535 FFFFFFFFFFFFFFFF"),
        case("B1", "prefix 32 0 32 0 - 8", "11 0 0 0 0 65535 -"),
        case("B1", "prefix 32 0 32 0 0A000000 8", "11 0 0 0 0 65535 -"),
        case("B1", "prefix 32 0 32 1 00000000 8", "0 0 0 0 8 65535 7FFFFFFFFFFFFFFF"),
        case("B1", format!("diff_member 32 {everything} C0000201"), "1 0 0 0 0 0 -"),
        case("B1", format!("diff_member 32 {everything} 00000000"), "1 0 0 0 0 0 -"),
    ]
}

/// Each bit of a value for twelve positions set alone, those behind the twelfth too.
fn every_bit() -> Vec<Case> {
    let asked = |bit: usize| format!("prefix 16 3 12 0 {:04X} 4", 1 << bit);
    (0..16).map(|bit| case("B1", asked(bit), "11 0 0 0 0 65535 -")).collect()
}

/// Zero bits in too few bytes, in 40 and in too many, for a field that needs 40.
fn every_length() -> Vec<Case> {
    let written = format!("0 0 0 0 80 65535 {}", "FF".repeat(80));
    let asked = |size: usize| match size {
        0 => "prefix 320 1 313 0 - 80".to_string(),
        _ => format!("prefix 320 1 313 0 {} 80", "00".repeat(size)),
    };
    let right = |size| if size == 40 { written.as_str() } else { "11 0 0 0 0 65535 -" };
    (0..=42).map(|size| case("B1", asked(size), right(size))).collect()
}
