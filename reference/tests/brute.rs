//! Every call against all headers of a small W.

mod common;

use std::slice;

use common::*;
use reference::answer::Outcome;
use reference::calls;
use reference::generator::random::Random;
use reference::notation::{bytes, c, f, h, r};

const ROOM: usize = 100_000;
const ENOUGH: u32 = 1_000_000;

/// The index of an answer that no difference decided.
const NONE: u16 = 65_535;

fn record((base, cuts): &Drawing) -> Vec<u8> {
    let cuts: Vec<&str> = cuts.iter().map(String::as_str).collect();
    bytes(&r(base, &cuts))
}

fn file(w: usize, region: &[Drawing]) -> Vec<u8> {
    let record = |(base, cuts): &Drawing| {
        let cuts: Vec<&str> = cuts.iter().map(String::as_str).collect();
        r(base, &cuts)
    };
    let records: Vec<String> = region.iter().map(record).collect();
    bytes(&f(w as u16, &records))
}

fn number(outcome: Outcome) -> u8 {
    outcome.unwrap().number
}

fn written(outcome: Outcome) -> Vec<u8> {
    let answer = outcome.unwrap();
    assert_eq!((answer.number, answer.count, answer.index), (0, 0, NONE));
    answer.bytes
}

fn yes_if(yes: bool) -> u8 {
    if yes {
        1
    } else {
        2
    }
}

/// The headers of a region file, asked one by one.
fn members(w: usize, file: &[u8]) -> Vec<String> {
    let is_in = |header: &String| number(calls::region_member(file, &bytes(&h(header)))) == 1;
    headers(w).into_iter().filter(is_in).collect()
}

fn headers_where(w: usize, wanted: impl Fn(&str) -> bool) -> Vec<String> {
    headers(w).into_iter().filter(|header| wanted(header)).collect()
}

/// Runs a test for W 1 to 6, so often each.
fn for_each_w(seed: u64, times: usize, test: impl Fn(&mut Random, usize)) {
    let mut random = Random::new(seed);
    for w in 1..=6 {
        for _ in 0..times {
            test(&mut random, w);
        }
    }
}

/// Holds membership's answer to the differences of which the first that has the header decides.
fn check_member(header: &str, differences: &[Drawing], given: Outcome) {
    let given = given.unwrap();
    let first = differences.iter().position(|difference| in_difference(header, difference));
    let index = first.map_or(NONE, |first| first as u16);
    assert_eq!((given.number, given.index), (yes_if(in_region(header, differences)), index));
    assert_eq!((given.count, given.bytes), (0, Vec::new()));
}

#[test]
fn membership() {
    for_each_w(1, 300, |random, w| {
        let difference = random_difference(random, w);
        let region = random_region(random, w);
        let (record, file) = (record(&difference), file(w, &region));
        for header in headers(w) {
            let lent = bytes(&h(&header));
            let given = calls::diff_member(w as u64, &record, &lent);
            check_member(&header, slice::from_ref(&difference), given);
            check_member(&header, &region, calls::region_member(&file, &lent));
        }
    });
}

/// Compares all calls on two cubes with the sets of their headers.
fn check_cubes(w: usize, a: &str, b: &str) {
    let (first, second) = (bytes(&c(a)), bytes(&c(b)));
    let both = headers_where(w, |header| in_cube(header, a) && in_cube(header, b));
    let meeting = calls::cube_meet(w as u64, &first, &second, ROOM).unwrap();
    assert_eq!((meeting.number == 2, meeting.index), (both.is_empty(), NONE));
    if meeting.number == 0 {
        let met = cubes(w).into_iter().find(|cube| bytes(&c(cube)) == meeting.bytes).unwrap();
        assert_eq!(headers_where(w, |header| in_cube(header, &met)), both);
    }
    let within = |a: &str, b: &str| headers(w).iter().all(|h| !in_cube(h, a) || in_cube(h, b));
    let given = calls::cube_in(w as u64, &first, &second).unwrap();
    assert_eq!((given.number, given.index), (yes_if(within(a, b)), NONE));
    let wider = calls::wider(w as u64, &first, &second).unwrap();
    let expected = match (within(b, a), within(a, b)) {
        (true, _) => Some(first.as_slice()),
        (false, true) => Some(second.as_slice()),
        (false, false) => None,
    };
    assert_eq!(wider, expected);
}

#[test]
fn all_pairs_of_cubes() {
    for w in 1..=3 {
        for a in cubes(w) {
            for b in cubes(w) {
                check_cubes(w, &a, &b);
            }
        }
    }
}

#[test]
fn cubes_that_meet_and_hold() {
    for_each_w(2, 50, |random, w| {
        let (a, b) = (random_cube(random, w), random_cube(random, w));
        check_cubes(w, &a, &b);
    });
}

#[test]
fn tidying_keeps_the_headers_and_twice_is_once() {
    for_each_w(3, 300, |random, w| {
        let region = random_region(random, w);
        let once = written(calls::region_tidy(&file(w, &region), ROOM));
        assert_eq!(members(w, &once), headers_where(w, |header| in_region(header, &region)));
        assert_eq!(written(calls::region_tidy(&once, ROOM)), once);
    });
}

#[test]
fn intersection() {
    for_each_w(4, 200, |random, w| {
        let (a, b) = (random_difference(random, w), random_difference(random, w));
        let result = written(calls::diff_intersect(w as u64, &record(&a), &record(&b), ROOM));
        let both = headers_where(w, |h| in_difference(h, &a) && in_difference(h, &b));
        assert_eq!(members(w, &result), both);
        assert_eq!(written(calls::region_tidy(&result, ROOM)), result);

        let (a, b) = (random_region(random, w), random_region(random, w));
        let result = written(calls::region_intersect(&file(w, &a), &file(w, &b), ROOM));
        let both = headers_where(w, |h| in_region(h, &a) && in_region(h, &b));
        assert_eq!(members(w, &result), both);
        assert_eq!(written(calls::region_tidy(&result, ROOM)), result);
    });
}

#[test]
fn subtraction() {
    for_each_w(5, 200, |random, w| {
        let (a, b) = (random_difference(random, w), random_difference(random, w));
        let result = written(calls::diff_less(w as u64, &record(&a), &record(&b), ROOM));
        let left = headers_where(w, |h| in_difference(h, &a) && !in_difference(h, &b));
        assert_eq!(members(w, &result), left);
        assert_eq!(written(calls::region_tidy(&result, ROOM)), result);

        let a = random_region(random, w);
        let result = written(calls::region_less(&file(w, &a), &record(&b), ROOM));
        let left = headers_where(w, |h| in_region(h, &a) && !in_difference(h, &b));
        assert_eq!(members(w, &result), left);
        assert_eq!(written(calls::region_tidy(&result, ROOM)), result);
    });
}

/// A difference or piece with its number.
type Numbered = (u16, Drawing);

fn numbered(region: &[Drawing]) -> Vec<Numbered> {
    (0..).zip(region.iter().cloned()).collect()
}

/// Holds a walk's answers at all allowances around its count to the headers it may show, and to
/// what is walked: the first that has a header decides, or the first that is not paid in full.
fn check_walk(shown: &[String], walked: &[Numbered], ask: impl Fn(u32) -> Outcome) -> u32 {
    let full = ask(ENOUGH).unwrap();
    assert_eq!(full.number, yes_if(shown.is_empty()));
    let held = |piece: &Drawing| headers_where(piece.0.len(), |h| in_difference(h, piece));
    match walked.iter().find(|(_, piece)| !held(piece).is_empty()) {
        Some((number, piece)) => {
            assert_eq!((full.number, full.index), (2, *number));
            let right = |header: &String| bytes(&h(header)) == full.bytes && shown.contains(header);
            assert!(held(piece).iter().any(right));
        }
        None => assert_eq!((full.number, full.index, full.bytes.len()), (1, NONE, 0)),
    }
    for allowance in 0..full.count {
        let answer = ask(allowance).unwrap();
        assert_eq!((answer.number, answer.count), (3, allowance));
        assert!(answer.bytes.is_empty());
        check_unpaid(walked, answer.index, allowance);
    }
    for allowance in [full.count, full.count + 1, u32::MAX] {
        assert_eq!(ask(allowance).unwrap(), full);
    }
    full.count
}

/// Holds the index of an undecided answer to what each walk costs by itself: all before it are
/// paid, and it is not.
fn check_unpaid(walked: &[Numbered], index: u16, allowance: u32) {
    let cost = |(_, piece): &Numbered| {
        let w = piece.0.len() as u64;
        calls::diff_empty(w, &record(piece), ENOUGH, 1).unwrap().count
    };
    let before = walked.iter().filter(|(number, _)| *number < index);
    let paid: u32 = before.map(cost).sum();
    let unpaid = walked.iter().find(|(number, _)| *number == index).unwrap();
    assert!(paid <= allowance && allowance < paid + cost(unpaid));
}

/// The smaller of the two bounds, from the drawing alone.
fn smaller_bound((base, cuts): &Drawing) -> u64 {
    let free = |drawing: &str, p: usize| drawing.as_bytes()[p] == b'*';
    let opens = |cut: &str, p: usize| free(base, p) && !free(cut, p);
    let alike = |cut: &str, p: usize| free(base, p) || free(cut, p) || base[p..=p] == cut[p..=p];
    let meeting: Vec<&String> =
        cuts.iter().filter(|cut| (0..base.len()).all(|p| alike(cut, p))).collect();
    let f = |cut: &str| (0..base.len()).filter(|&p| opens(cut, p)).count() as u64;
    let first = meeting.iter().rev().fold(1, |inner, cut| 1 + f(cut) * inner);
    let matters = |&p: &usize| meeting.iter().any(|cut| opens(cut, p));
    let s = (0..base.len()).filter(matters).count();
    first.min(1 + meeting.len() as u64 * (1 << s))
}

#[test]
fn emptiness_of_differences_and_the_ceiling() {
    for_each_w(6, 300, |random, w| {
        let difference = random_difference(random, w);
        let lent = record(&difference);
        let shown = headers_where(w, |header| in_difference(header, &difference));
        let ask = |allowance| calls::diff_empty(w as u64, &lent, allowance, 1);
        let count = check_walk(&shown, &numbered(slice::from_ref(&difference)), ask);
        let ceiling = calls::ceiling(w as u64, &lent).unwrap();
        assert!((1..=ceiling.count).contains(&count));
        assert_eq!(u64::from(ceiling.count), smaller_bound(&difference));
        assert_eq!(ceiling.index, NONE);
    });
}

#[test]
fn emptiness_of_regions() {
    for_each_w(7, 300, |random, w| {
        let region = random_region(random, w);
        let lent = file(w, &region);
        let shown = headers_where(w, |header| in_region(header, &region));
        let ask = |allowance| calls::region_empty(&lent, allowance, 1);
        check_walk(&shown, &numbered(&region), ask);
    });
}

/// The cube of the headers in both, if there are any.
fn met(a: &str, b: &str) -> Option<String> {
    let shared = headers(a.len()).into_iter().any(|h| in_cube(&h, a) && in_cube(&h, b));
    let narrower = |(x, y)| if x == '*' { y } else { x };
    shared.then(|| a.chars().zip(b.chars()).map(narrower).collect())
}

/// The pieces of a less b, numbered with the skipped ones: a with its cuts and b's base, then what
/// each cut of b gives back.
fn pieces(a: &Drawing, b: &Drawing) -> Vec<Numbered> {
    let first = (0, (a.0.clone(), [a.1.clone(), vec![b.0.clone()]].concat()));
    let given_back =
        (1..).zip(&b.1).filter_map(|(j, cut)| Some((j, (met(&a.0, cut)?, a.1.clone()))));
    std::iter::once(first).chain(given_back).collect()
}

fn check_inclusion(w: usize, a: &Drawing, b: &Drawing) {
    let (first, second) = (record(a), record(b));
    let shown = headers_where(w, |h| in_difference(h, a) && !in_difference(h, b));
    let ask = |allowance| calls::diff_in(w as u64, &first, &second, allowance, 1);
    check_walk(&shown, &pieces(a, b), ask);
}

#[test]
fn inclusion() {
    for_each_w(8, 300, |random, w| {
        let (a, b) = (random_difference(random, w), random_difference(random, w));
        check_inclusion(w, &a, &b);
        check_inclusion(w, &a, &a);
        check_inclusion(w, &a, &(b.0, a.1.clone()));
    });
}

/// All differences of W positions with at most so many cuts.
fn all_differences(w: usize, most: usize) -> Vec<Drawing> {
    let mut lists: Vec<Vec<String>> = vec![Vec::new()];
    let mut longest = lists.clone();
    for _ in 0..most {
        let with_each = |list: &Vec<String>| {
            let list = list.clone();
            cubes(w).into_iter().map(move |cube| [list.clone(), vec![cube]].concat())
        };
        longest = longest.iter().flat_map(with_each).collect();
        lists.extend(longest.clone());
    }
    let with_base = |base: String| lists.iter().map(move |list| (base.clone(), list.clone()));
    cubes(w).into_iter().flat_map(with_base).collect()
}

#[test]
fn all_pairs_of_small_differences() {
    for (w, most) in [(1, 2), (2, 1)] {
        let all = all_differences(w, most);
        for a in &all {
            for b in &all {
                check_inclusion(w, a, b);
                let less = written(calls::diff_less(w as u64, &record(a), &record(b), ROOM));
                let left = headers_where(w, |h| in_difference(h, a) && !in_difference(h, b));
                assert_eq!(members(w, &less), left);
            }
        }
    }
}

#[test]
fn prefixes() {
    for_each_w(9, 100, |random, w| {
        let n = random.between(1, w);
        let s = random.below(w - n + 1);
        let m = random.between(0, n);
        let field: String = random_header(random, m) + &"0".repeat(n - m);
        let [ws, ss, ns, ms] = [w, s, n, m].map(|number| number as u64);
        let cube = written(calls::prefix(ws, ss, ns, ms, &bytes(&h(&field)), ROOM));
        for header in headers(w) {
            let single = [vec![3 + cube.len() as u8, 0, 2, 0, 0], cube.clone()].concat();
            let given = number(calls::diff_member(ws, &single, &bytes(&h(&header))));
            assert_eq!(given, yes_if(header[s..s + m] == field[..m]));
        }
    });
}

fn random_header(random: &mut Random, w: usize) -> String {
    (0..w).map(|_| char::from(random.pick(b"01"))).collect()
}

#[test]
fn equality_of_fields() {
    for w in 1..=6 {
        for n in 1..=w {
            for s1 in 0..=w - n {
                for s2 in 0..=w - n {
                    check_equality(w, s1, s2, n);
                }
            }
        }
    }
}

fn check_equality(w: usize, s1: usize, s2: usize, n: usize) {
    let [ws, s1s, s2s, ns] = [w, s1, s2, n].map(|number| number as u64);
    let record = written(calls::equal_fields(ws, s1s, s2s, ns, ROOM));
    for header in headers(w) {
        let given = number(calls::diff_member(ws, &record, &bytes(&h(&header))));
        assert_eq!(given, yes_if(header[s1..s1 + n] == header[s2..s2 + n]));
    }
}

#[test]
fn views_and_reading_on_follow_the_records() {
    for_each_w(10, 100, |random, w| {
        let region = random_region(random, w);
        let lent = file(w, &region);
        let mut place = 0;
        for (d, (base, cuts)) in region.iter().enumerate() {
            let step = calls::read_on(&lent, place);
            let offset = step.found.unwrap().unwrap();
            for (i, cube) in std::iter::once(base).chain(cuts).enumerate() {
                let stretch = calls::view(&lent, d as u64, i as u64).unwrap();
                assert_eq!(stretch.start, offset as usize + 5 + i * w.div_ceil(4));
                assert_eq!(lent[stretch], bytes(&c(cube)));
            }
            assert_eq!(step.place, offset + 5 + ((cuts.len() + 1) * w.div_ceil(4)) as u64);
            place = step.place;
        }
        let end = calls::read_on(&lent, place);
        assert_eq!((end.found, end.place), (Ok(None), place));
    });
}
