//! Operands whose cuts or differences, read or resulting, are about as many as allowed.

use std::ops::Range;

use super::random::Random;
use super::shapes;
use crate::cube::{Cube, FREE};
use crate::difference::Difference;

/// The positions that tell the cuts of a crowd apart.
const TELLING: usize = 7;

/// The least W of a crowd of cuts.
pub const LEAST_W: usize = TELLING + 1;

/// Different cuts, by their numbers from 0 to 127.
fn cuts(w: usize, numbers: Range<usize>) -> Vec<Cube> {
    let numbered = |number: usize| {
        let mut cut = Cube::all_free(w);
        for p in 0..TELLING {
            cut.0[p] = b'0' + (number >> (TELLING - 1 - p) & 1) as u8;
        }
        cut
    };
    numbers.map(numbered).collect()
}

/// Two differences for this call with about 64 cuts, read or resulting.
pub fn pair(random: &mut Random, name: &str, w: usize) -> [Difference; 2] {
    match name {
        "diff_less" | "region_less" | "diff_in" => to_subtract(random, w),
        "diff_intersect" | "region_intersect" => to_intersect(random, w),
        "ceiling" => [bounded(random, w), shapes::difference(random, w)],
        _ => [single(random, w), shapes::difference(random, w)],
    }
}

fn free_less(w: usize, numbers: Range<usize>) -> Difference {
    Difference { base: Cube::all_free(w), cuts: cuts(w, numbers) }
}

fn single(random: &mut Random, w: usize) -> Difference {
    let count = random.pick(&[63, 64, 64, 65]);
    let from = random.below(60);
    free_less(w, from..from + count)
}

/// Many cuts of which either bound may be the smaller, where W allows about the greatest number.
fn bounded(random: &mut Random, w: usize) -> Difference {
    match random.below(4) {
        0 | 1 if w >= 2 * 32 => doubling(random, w),
        0..=2 if w >= 30 => repeating(random, w),
        0 => single(random, w),
        _ => scattered(random, w),
    }
}

/// The first bound about the greatest number: with two positions fixed by each and none by two,
/// k cuts give it 1 less than 2 to the power k + 1.
fn doubling(random: &mut Random, w: usize) -> Difference {
    let count = random.between(28, 32);
    let start = random.below(w - 2 * count + 1);
    let cut = |i: usize| {
        let mut cut = Cube::all_free(w);
        for p in [start + 2 * i, start + 2 * i + 1] {
            cut.0[p] = random.pick(b"01");
        }
        cut
    };
    Difference { base: Cube::all_free(w), cuts: (0..count).map(cut).collect() }
}

/// The second bound about the greatest number: the same s positions fixed by each, k cuts give it
/// 1 + k times 2 to the power s.
fn repeating(random: &mut Random, w: usize) -> Difference {
    let base = Cube::all_free(w);
    let s = random.between(26, 30);
    let full = 1 << (32 - s);
    let count = random.pick(&[full - 1, full, 64]);
    let first = shapes::narrowed(random, &base, s);
    let cut = |_| {
        let other = |&value: &u8| if value == FREE { FREE } else { random.pick(b"01") };
        Cube(first.0.iter().map(other).collect())
    };
    Difference { base, cuts: (0..count).map(cut).collect() }
}

/// Two positions fixed by each of about 32 cuts, some of which miss the base.
fn scattered(random: &mut Random, w: usize) -> Difference {
    let base = shapes::narrowed(random, &Cube::all_free(w), 2);
    let count = random.between(30, 33);
    let from = [Cube::all_free(w), base.clone()];
    let cut = |_| {
        let from = &from[random.below(2)];
        shapes::narrowed(random, from, 2)
    };
    let cuts = (0..count).map(cut).collect();
    Difference { base, cuts }
}

/// The intersection has about 64 cuts.
fn to_intersect(random: &mut Random, w: usize) -> [Difference; 2] {
    let count = random.between(10, 60);
    let total = random.between(63, 66);
    let shared = random.below(4);
    let first = free_less(w, 0..count);
    let mut second = free_less(w, count - shared..total);
    if random.one_in(4) {
        // A cut that covers the base: the difference is omitted however many cuts it has.
        second.cuts.push(Cube::all_free(w));
    }
    [first, second]
}

/// The first less the second has about 64 cuts.
fn to_subtract(random: &mut Random, w: usize) -> [Difference; 2] {
    let count = random.pick(&[62, 63, 64, 64]);
    // The second's base is one of the first's cuts, or another.
    let number = random.pick(&[5, 100, 127]);
    let base = cuts(w, number..number + 1).remove(0);
    let restored = random.below(3);
    let second = Difference {
        cuts: (0..restored).map(|_| shapes::narrowed(random, &base, 1)).collect(),
        base,
    };
    [free_less(w, 0..count), second]
}

/// How many differences the operands of this call have so that about 256 are read or result. For
/// what is taken from a region, how many cuts.
pub fn counts(random: &mut Random, name: &str) -> (usize, usize) {
    match name {
        "region_intersect" => {
            let (a, b) = random.pick(&[(16, 16), (15, 17), (16, 17), (2, 128), (3, 86), (1, 256)]);
            random.pick(&[(a, b), (b, a)])
        }
        "region_less" => {
            random.pick(&[(256, 0), (128, 1), (129, 1), (85, 2), (86, 2), (64, 3), (52, 4)])
        }
        _ => (random.between(255, 257), 1),
    }
}

fn free(random: &mut Random, w: usize) -> Difference {
    let base = Cube::all_free(w);
    let cuts = match random.below(16) {
        0 => vec![shapes::narrowed(random, &base, 2)],
        _ => Vec::new(),
    };
    Difference { base, cuts }
}

/// So many differences, nearly all without cuts.
pub fn many(random: &mut Random, w: usize, count: usize) -> Vec<Difference> {
    (0..count).map(|_| free(random, w)).collect()
}

/// About 256 differences, of which a late one is the first that has a header.
pub fn many_late(random: &mut Random, w: usize) -> Vec<Difference> {
    let count = random.between(250, 256);
    let last = random.between(1, 40);
    let mut region: Vec<Difference> = (last..count).map(|_| shapes::empty(random, w)).collect();
    region.extend(many(random, w, last));
    region
}

/// So many differences that this one is in the last result beyond the 256th.
pub fn many_and(random: &mut Random, name: &str, last: &Difference) -> Vec<Difference> {
    let count = match name {
        "region_intersect" => 16,
        _ => random.between(126, 130),
    };
    let mut region = many(random, last.base.w(), count);
    region.push(last.clone());
    region
}

/// What is taken from a region: each free difference leaves one piece, and one for each cut. Other
/// calls have greater counts and no use for it.
pub fn taken(random: &mut Random, w: usize, count: usize) -> Difference {
    let base = shapes::narrowed(random, &Cube::all_free(w), 2);
    Difference {
        cuts: (0..count.min(64)).map(|_| shapes::narrowed(random, &base, 1)).collect(),
        base,
    }
}
