//! Fixed questions about the ceiling as the smaller of two bounds, with answers worked out by hand
//! or by the sum in the comment.

use crate::cases::{case, Case};
use crate::notation::r;

pub fn all() -> Vec<Case> {
    let capped = first_about_cap().into_iter().chain(second_about_cap());
    let every = every_s().into_iter().chain(every_pair());
    lent_cuts().into_iter().chain(smaller()).chain(capped).chain(every).chain(paid()).collect()
}

fn ceiling(w: usize, base: &str, cuts: &[&str], right: u64) -> Case {
    case("B53", format!("ceiling {w} {}", r(base, cuts)), format!("0 0 0 {right} 0 65535 -"))
}

/// A free base of f positions less the same header k times. The first bound is 1 + f + .. + f^k,
/// the second 1 + k times 2^f.
fn repeated(f: usize, k: usize, right: u64) -> Case {
    let cut = "1".repeat(f);
    ceiling(f, &"*".repeat(f), &vec![cut.as_str(); k], right)
}

/// Equal cuts are counted each, those that miss the base are not, and with none that meets it the
/// ceiling is 1.
fn lent_cuts() -> Vec<Case> {
    vec![
        ceiling(4, "1***", &["0*00", "11**", "11**"], 3),
        ceiling(2, "**", &["11", "11", "11"], 13),
        ceiling(2, "**", &[], 1),
        ceiling(4, "1***", &["0***", "0111", "0*00"], 1),
        ceiling(4, "1111", &["****", "1***"], 1),
        // The second bound is smaller, with k 4 and s 2; the cut that misses would make them 5 and 3.
        ceiling(4, "0***", &["000*", "000*", "000*", "000*"], 17),
        ceiling(4, "0***", &["1111", "000*", "000*", "000*", "000*"], 17),
        ceiling(4, "0***", &["000*", "000*", "1111", "000*", "000*"], 17),
        ceiling(4, "0***", &["000*", "000*", "000*", "000*", "1111"], 17),
    ]
}

/// Where the first bound is the smaller, where the second is, and where they are equal.
fn smaller() -> Vec<Case> {
    vec![
        ceiling(2, "**", &["00", "01", "10"], 13),
        ceiling(2, "**", &["00", "01"], 7),
        ceiling(2, "**", &["11", "1*", "11", "11"], 17),
        ceiling(3, "***", &["1**", "*1*", "**1"], 4),
        ceiling(3, "***", &["11*", "*11", "1*1"], 15),
        repeated(2, 2, 7),
        repeated(2, 4, 17),
        repeated(3, 2, 13),
        repeated(3, 3, 25),
        repeated(3, 64, 513),
        repeated(7, 64, 8_193),
        repeated(1, 1, 2),
        repeated(1, 64, 65),
        repeated(30, 2, 931),
        repeated(320, 1, 321),
        repeated(320, 3, 32_870_721),
    ]
}

/// The first bound about its cap, and the second far above: k cuts that fix two positions each,
/// none of them twice, make it 1 less than 2 to the power k + 1.
fn first_about_cap() -> Vec<Case> {
    let apart = |i: usize| "*".repeat(2 * i) + "11" + &"*".repeat(66 - 2 * i);
    let cuts: Vec<String> = (0..33).map(apart).collect();
    let cuts: Vec<&str> = cuts.iter().map(String::as_str).collect();
    let first = |k: usize, right| ceiling(68, &"*".repeat(68), &cuts[..k], right);
    vec![
        first(29, 1_073_741_823),
        first(30, 2_147_483_647),
        first(31, 4_294_967_295),
        first(32, 4_294_967_295),
        first(33, 4_294_967_295),
    ]
}

/// The second bound about its cap, and the first far above; then both at the cap.
fn second_about_cap() -> Vec<Case> {
    vec![
        repeated(28, 15, 4_026_531_841),
        repeated(28, 16, 4_294_967_295),
        repeated(26, 63, 4_227_858_433),
        repeated(26, 64, 4_294_967_295),
        repeated(27, 31, 4_160_749_569),
        repeated(27, 32, 4_294_967_295),
        repeated(29, 7, 3_758_096_385),
        repeated(29, 8, 4_294_967_295),
        repeated(320, 64, 4_294_967_295),
    ]
}

/// Every s up to 320, with eight cuts.
fn every_s() -> Vec<Case> {
    let right = |s: u32| {
        let first: u128 = (0..=8).map(|i| u128::from(s).pow(i)).sum();
        let second = if s < 32 { 1 + (8 << s) } else { u128::MAX };
        first.min(second).min(4_294_967_295) as u64
    };
    (1..=320).map(|s| repeated(s as usize, 8, right(s))).collect()
}

/// The positions that matter anywhere among nine, and 0 against 1 at each of them: P7 elsewhere.
fn every_pair() -> Vec<Case> {
    let cut = |p: usize, q: usize, values: [&str; 2]| {
        let between = "*".repeat(q - p - 1);
        "*".repeat(p) + values[0] + &between + values[1] + &"*".repeat(8 - q)
    };
    let asked = |p: usize, q: usize| {
        let cuts = [["0", "0"], ["0", "1"], ["1", "0"]].map(|values| cut(p, q, values));
        ceiling(9, "*********", &cuts.each_ref().map(String::as_str), 13)
    };
    (1..9).flat_map(|q| (0..q).map(move |p| asked(p, q))).collect()
}

/// An allowance of the ceiling decides, though the count may be less: P7, and every header of two
/// and of three positions taken away one by one, where each is met once. One that is less than the
/// count does not.
fn paid() -> Vec<Case> {
    let p7 = r("**", &["00", "01", "10"]);
    let two = r("**", &["00", "01", "10", "11"]);
    let three = r("***", &["000", "001", "010", "011", "100", "101", "110", "111"]);
    vec![
        case("B53", format!("diff_empty 2 {p7} 13 1"), "2 0 0 3 1 0 C0"),
        case("B53", format!("diff_empty 2 {p7} 2 1"), "3 0 0 2 0 0 -"),
        case("B53", format!("ceiling 2 {two}"), "0 0 0 17 0 65535 -"),
        case("B53", format!("diff_empty 2 {two} 17 1"), "1 0 0 4 0 65535 -"),
        case("B53", format!("ceiling 3 {three}"), "0 0 0 65 0 65535 -"),
        case("B53", format!("diff_empty 3 {three} 65 1"), "1 0 0 8 0 65535 -"),
        case("B53", format!("diff_empty 3 {three} 8 1"), "1 0 0 8 0 65535 -"),
        case("B53", format!("diff_empty 3 {three} 7 1"), "3 0 0 7 0 0 -"),
    ]
}
