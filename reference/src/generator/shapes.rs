//! Cubes, headers and differences that are worth asking about.

use super::random::Random;
use crate::cube::{opposite, Cube, FREE};
use crate::difference::Difference;
use crate::header::Header;

/// Mostly a small W, so that lines stay short and shapes often touch.
pub fn any_w(random: &mut Random) -> usize {
    match random.below(24) {
        0..=17 => random.between(1, 8),
        18..=20 => random.between(9, 40),
        21 | 22 => random.pick(&[63, 64, 65, 99, 104, 127, 128, 129]),
        _ => random.pick(&[255, 256, 257, 317, 319, 320]),
    }
}

fn value(random: &mut Random) -> u8 {
    random.pick(b"01")
}

/// A cube that is all free, all fixed, or anything between.
pub fn cube(random: &mut Random, w: usize) -> Cube {
    let fixed = random.below(9);
    let any = |_| match random.below(8) < fixed {
        true => value(random),
        false => FREE,
    };
    Cube((0..w).map(any).collect())
}

/// A cube with few fixed positions.
fn base(random: &mut Random, w: usize) -> Cube {
    let most = random.below(3);
    narrowed(random, &Cube::all_free(w), most)
}

/// The free positions of a cube in any order.
fn free_positions(random: &mut Random, cube: &Cube) -> Vec<usize> {
    let mut free: Vec<usize> = (0..cube.w()).filter(|&p| cube.0[p] == FREE).collect();
    random.shuffle(&mut free);
    free
}

/// The cube with at most so many of its free positions fixed.
pub fn narrowed(random: &mut Random, cube: &Cube, most: usize) -> Cube {
    let mut narrower = cube.clone();
    for p in free_positions(random, cube).into_iter().take(most) {
        narrower.0[p] = value(random);
    }
    narrower
}

/// The cube with some of its positions freed.
pub fn widened(random: &mut Random, cube: &Cube) -> Cube {
    let mut wider = cube.clone();
    for value in &mut wider.0 {
        if random.one_in(3) {
            *value = FREE;
        }
    }
    wider
}

/// A second cube beside a first: often one of the two holds the other.
pub fn beside(random: &mut Random, first: &Cube) -> Cube {
    match random.below(6) {
        0 => first.clone(),
        1 | 2 => widened(random, first),
        3 => narrowed(random, first, 2),
        4 => {
            let wider = widened(random, first);
            narrowed(random, &wider, 2)
        }
        _ => cube(random, first.w()),
    }
}

/// A cut: mostly within the base, sometimes beyond it, beside it or all of it.
fn cut(random: &mut Random, base: &Cube) -> Cube {
    let within = narrowed(random, base, 3);
    match random.below(12) {
        0 => cube(random, base.w()),
        1 | 2 => widened(random, &within),
        3 if random.one_in(3) => base.clone(),
        4 => missing(random, base, within),
        _ => within,
    }
}

/// The cut with another value where the base is fixed, so that they share no header; as it is if
/// the base is all free.
fn missing(random: &mut Random, base: &Cube, mut cut: Cube) -> Cube {
    let fixed: Vec<usize> = (0..base.w()).filter(|&p| base.0[p] != FREE).collect();
    if !fixed.is_empty() {
        let p = random.pick(&fixed);
        cut.0[p] = opposite(base.0[p]);
    }
    cut
}

pub fn difference(random: &mut Random, w: usize) -> Difference {
    let base = base(random, w);
    let most = if w > 40 { 3 } else { 9 };
    let count = random.pick(&[0, 1, 1, 2, 2, 3, 4, 6, 9]).min(most);
    let mut cuts: Vec<Cube> = (0..count).map(|_| cut(random, &base)).collect();
    if count > 1 && random.one_in(3) {
        cuts[count - 1] = cuts[0].clone();
    }
    Difference { base, cuts }
}

/// A difference whose cuts cover the base together, or all of it but one part.
pub fn covered(random: &mut Random, w: usize) -> Difference {
    let base = base(random, w);
    let mut cuts = cover(random, &base, 3);
    if random.one_in(4) {
        cuts.pop();
    }
    if random.one_in(2) {
        let other = cut(random, &base);
        cuts.insert(random.below(cuts.len() + 1), other);
    }
    Difference { base, cuts }
}

/// Cuts for all values of at most so many free positions, in any order.
fn cover(random: &mut Random, base: &Cube, most: usize) -> Vec<Cube> {
    let count = random.between(1, most);
    let mut cuts = vec![base.clone()];
    for p in free_positions(random, base).into_iter().take(count) {
        let with = |cut: &Cube, value: u8| {
            let mut with = cut.clone();
            with.0[p] = value;
            with
        };
        cuts = cuts.iter().flat_map(|cut| [with(cut, b'0'), with(cut, b'1')]).collect();
    }
    random.shuffle(&mut cuts);
    cuts
}

/// A difference without a header: one cut is its base, or several cover it together.
pub fn empty(random: &mut Random, w: usize) -> Difference {
    let base = base(random, w);
    let cuts = if random.one_in(2) { vec![base.clone()] } else { cover(random, &base, 2) };
    Difference { base, cuts }
}

/// A covered difference with a long walk: its first cuts leave many pieces for the cover.
pub fn deep(random: &mut Random, w: usize) -> Difference {
    let base = Cube::all_free(w);
    let first = random.between(3, 5);
    let positions = random.between(3, 8);
    let mut cuts: Vec<Cube> = (0..first).map(|_| narrowed(random, &base, positions)).collect();
    cuts.extend(cover(random, &base, 2));
    Difference { base, cuts }
}

/// A second difference beside a first: often it holds the first, or is cut by the same cuts.
pub fn other(random: &mut Random, first: &Difference) -> Difference {
    match random.below(6) {
        0 => first.clone(),
        1 => Difference {
            // Its base may be beside the first's while its cuts are not.
            base: cube(random, first.base.w()),
            cuts: vec![narrowed(random, &first.base, 2)],
        },
        2 => Difference {
            base: widened(random, &first.base),
            cuts: first.cuts.iter().take(random.below(3)).cloned().collect(),
        },
        3 => {
            let w = first.base.w();
            let mut second = difference(random, w);
            second.cuts.extend(first.cuts.iter().take(2).cloned());
            second
        }
        _ => difference(random, first.base.w()),
    }
}

/// Two differences, the second with a base that holds the first's: only its cuts can give back a
/// header. The first so many of them miss the first's base, and some of those after too.
pub fn giving_back(random: &mut Random, w: usize, missing_first: usize) -> [Difference; 2] {
    let fixed = random.between(1, 2);
    let base = narrowed(random, &Cube::all_free(w), fixed);
    let own = random.below(3);
    let own = (0..own).map(|_| narrowed(random, &base, 2)).collect();
    let wider = widened(random, &base);
    let count = missing_first + random.between(1, 4);
    let given = |i: usize| {
        let within = narrowed(random, &base, 2);
        let misses = i < missing_first || random.one_in(3);
        if misses {
            missing(random, &base, within)
        } else {
            within
        }
    };
    let cuts = (0..count).map(given).collect();
    [Difference { base, cuts: own }, Difference { base: wider, cuts }]
}

/// A header, often in the cube.
pub fn header(random: &mut Random, near: &Cube) -> Header {
    let near = if random.one_in(3) { Cube::all_free(near.w()) } else { near.clone() };
    let every = near.w();
    narrowed(random, &near, every).lowest_header()
}
