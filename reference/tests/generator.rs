//! The generator's lines: the same for a seed, of bounded size, and reaching every number.

use reference::agree::agree;
use reference::coverage::Coverage;
use reference::desk::{answer, UNREADABLE};
use reference::generator::Lines;
use reference::record::{kind_2, read_single};
use reference::region::Region;
use reference::{hex, walk};

const LINES: usize = 3_000;

fn lines(seed: u64, count: usize) -> Vec<String> {
    Lines::new(seed).take(count).collect()
}

#[test]
fn a_seed_gives_the_same_lines() {
    assert_eq!(lines(5, 700), lines(5, 700));
    assert_ne!(lines(5, 700), lines(6, 700));
}

#[test]
fn every_number_of_every_call_is_reached() {
    for seed in [1, 2, 3] {
        let mut coverage = Coverage::default();
        for line in lines(seed, LINES) {
            coverage.count(&line, &answer(line.as_bytes()));
        }
        assert_eq!(coverage.missing(), []);
    }
}

/// The value and the answer of a line that asks for a prefix of length 0.
fn default_route(line: &str) -> Option<(String, String)> {
    let words: Vec<&str> = line.split(' ').collect();
    match words[..] {
        ["prefix", _, _, _, m, value, _] if m.parse() == Ok(0u64) => {
            Some((value.to_string(), answer(line.as_bytes())))
        }
        _ => None,
    }
}

#[test]
fn prefixes_of_length_0_are_asked() {
    for seed in [1, 2, 3] {
        let lines = lines(seed, LINES);
        let asked: Vec<_> = lines.iter().filter_map(|line| default_route(line)).collect();
        let given = |number: &str| asked.iter().any(|(_, answer)| answer.starts_with(number));
        assert!(["0 ", "11 ", "21 ", "22 "].into_iter().all(given), "seed {seed}");
        let empty = asked.iter().filter(|(value, _)| value == "-");
        assert!(empty.map(|(_, answer)| answer).any(|answer| answer.starts_with("11 ")));
    }
}

/// The two bounds of a line that asks for the ceiling and gets it, and what it gets.
fn bounds(line: &str) -> Option<[u32; 3]> {
    let words: Vec<&str> = line.split(' ').collect();
    let ["ceiling", w, lent] = words[..] else { return None };
    let answer = answer(line.as_bytes());
    let count = answer.strip_prefix("0 0 0 ")?.split(' ').next()?.parse().ok()?;
    let difference = read_single(w.parse().ok()?, &hex::read(lent.as_bytes())?).ok()?;
    Some([walk::cut_by_cut(&difference), walk::by_positions(&difference), count])
}

#[test]
fn ceilings_of_either_bound_are_asked() {
    for seed in [1, 2, 3] {
        let asked: Vec<_> = lines(seed, LINES).iter().filter_map(|line| bounds(line)).collect();
        let seen = |what: fn(&[u32; 3]) -> bool| asked.iter().any(what);
        assert!(seen(|&[first, second, count]| count == first && first < second));
        assert!(seen(|&[first, second, count]| count == second && second < first));
        assert!(seen(|&[first, second, _]| first == u32::MAX && second == u32::MAX));
        assert!(seen(|&[first, second, count]| [first, second, count] == [1, 1, 1]));
        let below = |count: u32| count > 1 << 28 && count < u32::MAX;
        assert!(asked.iter().any(|&[first, second, _]| below(first) && second == u32::MAX));
        assert!(asked.iter().any(|&[first, second, _]| below(second) && first == u32::MAX));
    }
}

/// The call of a line, and the number and the index of its answer.
fn decided(line: &str) -> Option<(&str, u8, u16)> {
    let answer = answer(line.as_bytes());
    let mut parts = answer.split(' ');
    let number = parts.next()?.parse().ok()?;
    Some((line.split(' ').next()?, number, parts.nth(4)?.parse().ok()?))
}

#[test]
fn every_sort_of_index_is_asked() {
    for seed in [1, 2, 3] {
        let lines = lines(seed, LINES);
        let given: Vec<_> = lines.iter().filter_map(|line| decided(line)).collect();
        let seen = |name: &str, number: u8, least: u16, most: u16| {
            let wanted = |&(call, told, index): &(&str, u8, u16)| {
                call == name && told == number && (least..=most).contains(&index)
            };
            assert!(given.iter().any(wanted), "seed {seed}: {name} {number}, {least} to {most}");
        };
        for name in ["diff_member", "region_member"] {
            seen(name, 1, 0, 0);
            seen(name, 2, 65_535, 65_535);
        }
        seen("region_member", 1, 1, 9);
        seen("region_member", 1, 201, 255);
        for name in ["diff_empty", "region_empty", "diff_in"] {
            seen(name, 1, 65_535, 65_535);
            for number in [2, 3] {
                seen(name, number, 0, 0);
            }
        }
        for number in [2, 3] {
            seen("region_empty", number, 1, 9);
            seen("region_empty", number, 201, 255);
            seen("diff_in", number, 2, 9);
            seen("diff_in", number, 51, 64);
        }
    }
}

#[test]
fn only_these_answers_have_an_index() {
    for line in lines(1, LINES) {
        let Some((name, number, index)) = decided(&line) else { continue };
        let decides = match name {
            "diff_member" | "region_member" => number == 1,
            "diff_empty" | "region_empty" | "diff_in" => number == 2 || number == 3,
            _ => false,
        };
        assert_eq!(index != 65_535, decides, "{name} {number} {index}");
    }
}

/// The line of a walk without the difference of this index and those after it, or without the cuts
/// that this piece and those after it are of.
fn front(line: &str, index: usize) -> Option<String> {
    let words: Vec<&str> = line.split(' ').collect();
    match words[..] {
        ["region_empty", file, allowance, room] => {
            let mut region = Region::read(1, &hex::read(file.as_bytes())?).ok()?;
            region.differences.truncate(index);
            Some(format!("region_empty {} {allowance} {room}", hex::capital(&region.file())))
        }
        ["diff_in", w, first, second, allowance, room] => {
            let mut second = read_single(w.parse().ok()?, &hex::read(second.as_bytes())?).ok()?;
            second.cuts.truncate(index.checked_sub(1)?);
            let second = hex::capital(&kind_2(&second));
            Some(format!("diff_in {w} {first} {second} {allowance} {room}"))
        }
        _ => None,
    }
}

/// The call and the index of a line whose allowance ends exactly before what decides.
fn ends_between(line: &str) -> Option<(&str, u16)> {
    let (name, 3, index) = decided(line)? else { return None };
    let before = answer(front(line, usize::from(index))?.as_bytes());
    let allowance: u32 = line.split(' ').rev().nth(1)?.parse().ok()?;
    (before == format!("1 0 0 {allowance} 0 65535 -")).then_some((name, index))
}

#[test]
fn allowances_end_between_differences_and_pieces() {
    for seed in [1, 2, 3] {
        let lines = lines(seed, LINES);
        let ends: Vec<_> = lines.iter().filter_map(|line| ends_between(line)).collect();
        let seen = |name: &str, least: u16| {
            let late = |&(call, index): &(&str, u16)| call == name && index >= least;
            assert!(ends.iter().any(late), "seed {seed}: {name}, {least} or later");
        };
        seen("region_empty", 1);
        seen("region_empty", 201);
        seen("diff_in", 2);
        seen("diff_in", 51);
    }
}

#[test]
fn the_lines_stay_small() {
    let lines = lines(4, LINES);
    let bytes: usize = lines.iter().map(|line| line.len() + 1).sum();
    assert!(bytes < 1_200_000, "{bytes} bytes");
    assert!(!lines.iter().any(|line| line.contains('\n')));
}

#[test]
fn long_lines_come_later() {
    let lengths: Vec<usize> = Lines::new(1).take(8_000).map(|line| line.len()).collect();
    assert_eq!((lengths[3_999], lengths[7_999]), (524_289, 524_288));
    let last = Lines::new(1).nth(3_999).unwrap();
    assert_eq!(answer(last.as_bytes()), UNREADABLE);
}

#[test]
fn differences_are_shown_and_counted() {
    let questions = "a\nb\nc\n";
    let same = agree(questions, "1\n2\n3\n", "1\n2\n3\n");
    assert_eq!((same.report.as_str(), same.all), ("3 of 3 agree\n", true));
    let other = agree(questions, "1\n5\n", "1\n2\n3\n");
    assert!(other.report.starts_with("line 2: b\n  desk:      5\n  reference: 2\n"));
    assert!(other.report.ends_with("1 of 3 agree\n") && !other.all);
    let more = agree(questions, "1\n2\n3\n4\n", "1\n2\n3\n");
    assert!(!more.all);
}
