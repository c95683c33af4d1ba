//! Every public call, in the document's order of refusals: direct W; operand 1; operand 2; 20;
//! header, field or index; then the result's.

use std::ops::Range;

use crate::answer::{needs_room, Answer, Outcome, Refusal};
use crate::cube::Cube;
use crate::difference::Difference;
use crate::header::{Header, GREATEST_W};
use crate::reader::Step;
use crate::region::Region;
use crate::{algebra, fields, reader, record, tidy, views, walk};

fn direct_w(w: u64) -> Result<usize, Refusal> {
    match usize::try_from(w) {
        Ok(w) if (1..=GREATEST_W).contains(&w) => Ok(w),
        _ => Err(Refusal::plain(10)),
    }
}

fn lent_cube(operand: u8, w: usize, bytes: &[u8]) -> Result<Cube, Refusal> {
    Cube::read(w, bytes).map_err(|number| Refusal::at(number, operand, 0))
}

fn single(operand: u8, w: usize, bytes: &[u8]) -> Result<Difference, Refusal> {
    record::read_single(w, bytes).map_err(|number| Refusal::at(number, operand, 0))
}

fn lent_header(w: usize, bytes: &[u8]) -> Result<Header, Refusal> {
    Header::read(w, bytes).ok_or(Refusal::plain(11))
}

/// Two cubes share a header in the cube written; if they share none nothing is, so 2 before 22.
pub fn cube_meet(w: u64, a: &[u8], b: &[u8], room: usize) -> Outcome {
    let w = direct_w(w)?;
    let first = lent_cube(1, w, a)?;
    let second = lent_cube(2, w, b)?;
    match first.meet(&second) {
        Some(cube) => Answer::written(cube.bytes(), room),
        None => Ok(Answer::yes_or_no(false)),
    }
}

/// Whether the first cube is in the second.
pub fn cube_in(w: u64, a: &[u8], b: &[u8]) -> Outcome {
    let w = direct_w(w)?;
    let first = lent_cube(1, w, a)?;
    let second = lent_cube(2, w, b)?;
    Ok(Answer::yes_or_no(second.holds(&first)))
}

pub fn wider<'a>(w: u64, a: &'a [u8], b: &'a [u8]) -> Result<Option<&'a [u8]>, Refusal> {
    let w = direct_w(w)?;
    let first = lent_cube(1, w, a)?;
    let second = lent_cube(2, w, b)?;
    Ok(views::wider((a, &first), (b, &second)))
}

pub fn diff_member(w: u64, record: &[u8], header: &[u8]) -> Outcome {
    let w = direct_w(w)?;
    let difference = single(1, w, record)?;
    let header = lent_header(w, header)?;
    Ok(Answer::member(difference.has(&header).then_some(0)))
}

pub fn region_member(file: &[u8], header: &[u8]) -> Outcome {
    let region = Region::read(1, file)?;
    let header = lent_header(region.w, header)?;
    Ok(Answer::member(region.first_with(&header)))
}

pub fn diff_intersect(w: u64, r1: &[u8], r2: &[u8], room: usize) -> Outcome {
    let w = direct_w(w)?;
    let first = single(1, w, r1)?;
    let second = single(2, w, r2)?;
    tidy::write(w, algebra::intersect(&first, &second).into_iter(), room)
}

pub fn region_intersect(f1: &[u8], f2: &[u8], room: usize) -> Outcome {
    let first = Region::read(1, f1)?;
    let second = Region::read(2, f2)?;
    if first.w != second.w {
        return Err(Refusal::plain(20));
    }
    let with_each = |a| {
        let others = second.differences.iter();
        others.filter_map(move |b| algebra::intersect(a, b))
    };
    let result = first.differences.iter().flat_map(with_each);
    tidy::write(first.w, result, room)
}

pub fn diff_less(w: u64, r1: &[u8], r2: &[u8], room: usize) -> Outcome {
    let w = direct_w(w)?;
    let first = single(1, w, r1)?;
    let second = single(2, w, r2)?;
    let result = algebra::subtract(&first, &second);
    tidy::write(w, result.into_iter(), room)
}

/// The record is of the file's W.
pub fn region_less(file: &[u8], record: &[u8], room: usize) -> Outcome {
    let region = Region::read(1, file)?;
    let taken = single(2, region.w, record)?;
    let differences = region.differences.iter();
    let result = differences.flat_map(|d| algebra::subtract(d, &taken));
    tidy::write(region.w, result, room)
}

pub fn diff_empty(w: u64, record: &[u8], allowance: u32, room: usize) -> Outcome {
    let w = direct_w(w)?;
    let difference = single(1, w, record)?;
    needs_room(Header::length(w), room)?;
    Ok(walk::walk([(0, difference)], allowance))
}

pub fn region_empty(file: &[u8], allowance: u32, room: usize) -> Outcome {
    let region = Region::read(1, file)?;
    needs_room(Header::length(region.w), room)?;
    Ok(walk::walk(region.differences.into_iter().enumerate(), allowance))
}

/// Whether the first difference is in the second: walks the untidied pieces of first less second.
pub fn diff_in(w: u64, r1: &[u8], r2: &[u8], allowance: u32, room: usize) -> Outcome {
    let w = direct_w(w)?;
    let first = single(1, w, r1)?;
    let second = single(2, w, r2)?;
    needs_room(Header::length(w), room)?;
    Ok(walk::walk(algebra::numbered_pieces(&first, &second), allowance))
}

pub fn ceiling(w: u64, record: &[u8]) -> Outcome {
    let w = direct_w(w)?;
    let difference = single(1, w, record)?;
    Ok(Answer::ceiling(walk::ceiling(&difference)))
}

pub fn region_tidy(file: &[u8], room: usize) -> Outcome {
    let region = Region::read(1, file)?;
    tidy::write(region.w, region.differences.into_iter(), room)
}

pub fn prefix(w: u64, s: u64, n: u64, m: u64, value: &[u8], room: usize) -> Outcome {
    fields::prefix(direct_w(w)?, s, n, m, value, room)
}

pub fn equal_fields(w: u64, s1: u64, s2: u64, n: u64, room: usize) -> Outcome {
    fields::equal_fields(direct_w(w)?, s1, s2, n, room)
}

pub fn view(file: &[u8], d: u64, i: u64) -> Result<Range<usize>, Refusal> {
    views::view(file, d, i)
}

pub fn read_on(file: &[u8], place: u64) -> Step {
    reader::read_on(file, place)
}
