//! The fixed cases: every line of the readings, the document's figures and its slips.
//! The gate asks the desk all of them first, and holds it to the reference's answers.

use std::fs;

use reference::answer::Answer;
use reference::cases;
use reference::desk;
use reference::difference::Difference;
use reference::notation::{bytes, c, cube, difference, f, r, w1};
use reference::program::question;
use reference::tidy::tidy;
use reference::{calls, walk};

#[test]
fn every_case_has_its_answer() {
    for case in cases::all() {
        let given = desk::answer(case.question.as_bytes());
        let shown: String = case.question.chars().take(100).collect();
        assert_eq!(given, case.answer, "{}: {shown}", case.source);
    }
}

#[test]
fn every_source_is_there() {
    let sources: Vec<&str> = cases::all().iter().map(|case| case.source).collect();
    // A5d and A35 have no line of their own; A36 is about the question program.
    let readings = (1..=34).map(|i| format!("A{i}"));
    let lettered = ["A5b", "A5c", "A6b", "A6c", "A6d", "A8b", "A13b", "A30b"].map(String::from);
    // B16 is about the question program.
    let requests = ["B70", "B1", "B53", "B12", "B13", "B14", "B15", "B72"].map(String::from);
    let figures = (1..=10).map(|i| format!("P{i}"));
    for source in readings.chain(lettered).chain(requests).chain(figures) {
        assert!(sources.contains(&source.as_str()), "{source}");
    }
}

/// A file of the desk's folder.
fn desks(name: &str) -> Vec<u8> {
    let path = format!("{}/../crates/desk/{name}", env!("CARGO_MANIFEST_DIR"));
    fs::read(&path).unwrap_or_else(|error| panic!("{path}: {error}"))
}

#[test]
fn the_gate_asks_the_desk_every_case() {
    let questions = desks("stdin");
    let mut lines = questions.split(|&character| character == b'\n');
    for case in cases::all() {
        let asked = String::from_utf8_lossy(lines.next().unwrap_or_default());
        assert_eq!(asked, case.question, "{}", case.source);
    }
}

#[test]
fn the_gate_holds_the_desk_to_these_answers() {
    let mut answers = Vec::new();
    desk::answer_all(desks("stdin").as_slice(), &mut answers).unwrap();
    let answers = String::from_utf8(answers).unwrap();
    let held = String::from_utf8(desks("stdout")).unwrap();
    for (i, (right, held)) in answers.lines().zip(held.lines()).enumerate() {
        assert_eq!(held, right, "line {}", i + 1);
    }
    assert_eq!(held.lines().count(), answers.lines().count());
}

#[test]
fn a24_the_wider_of_equal_cubes_is_the_first_itself() {
    let (a, b) = (bytes(&c("1***")), bytes(&c("1***")));
    let stretch = calls::wider(4, &a, &b).unwrap().unwrap();
    assert!(std::ptr::eq(stretch, a.as_slice()));
}

#[test]
fn the_wider_comes_back_as_the_lent_bytes() {
    let (narrow, wide) = (bytes(&c("10**")), bytes(&c("1***")));
    let second = calls::wider(4, &narrow, &wide).unwrap().unwrap();
    assert!(std::ptr::eq(second, wide.as_slice()));
    let first = calls::wider(4, &wide, &narrow).unwrap().unwrap();
    assert!(std::ptr::eq(first, wide.as_slice()));
}

#[test]
fn a36_the_question_programs_lines() {
    assert_eq!(question(&[0; 65_537]), "refused 25 0\n");
    assert_eq!(question(&[0; 65_536]), "refused 17 0\n");
    assert_eq!(question(b""), "refused 15 0\n");
    let file = f(12, &[r("1010********", &["10100*******"])]);
    assert_eq!(question(&bytes(&file)), "member 2 A800\n");
    assert_eq!(question(&bytes(&w1(4))), "empty 0\n");
}

#[test]
fn the_question_programs_figure() {
    let file = bytes("04 00 01 00 04 00 05 00 02 00 01 FF 9F");
    assert_eq!(question(&file), "member 2 00\n");
}

#[test]
fn b16_the_question_programs_line_has_no_index() {
    let (covered, free) = (r("1*", &["**"]), r("**", &[]));
    let line = |records: &[String]| question(&bytes(&f(2, records)));
    assert_eq!(line(&[covered.clone(), free.clone()]), "member 2 00\n");
    assert_eq!(line(&[free]), "member 1 00\n");
    assert_eq!(line(&[covered.clone(), covered]), "empty 2\n");
}

#[test]
fn the_question_program_can_be_undecided() {
    // Each of the cuts leaves eight pieces to the next, and nothing survives the last two.
    let apart = |i: usize| "*".repeat(8 * i) + "11111111" + &"*".repeat(8 * (9 - i));
    let cuts: Vec<String> = (0..8).map(apart).collect();
    let last = |value: &str| "*".repeat(79) + value;
    let (zero, one) = (last("0"), last("1"));
    let mut cuts: Vec<&str> = cuts.iter().map(String::as_str).collect();
    cuts.extend([zero.as_str(), one.as_str()]);
    let file = f(80, &[r(&"*".repeat(80), &cuts)]);
    assert_eq!(question(&bytes(&file)), "undecided 1000000\n");
}

#[test]
fn p1_p2_cubes_as_bytes() {
    assert_eq!(cube("10**").bytes(), [0x9F]);
    assert_eq!(cube("101").bytes(), [0x9B]);
}

#[test]
fn p4_to_p7_walks_and_ceilings() {
    let walked = |difference: &Difference, allowance, right: (u8, u32, &[u8], u16)| {
        let (number, count, bytes, index) = right;
        let right = Answer { number, count, bytes: bytes.to_vec(), index };
        assert_eq!(walk::walk([(0, difference.clone())], allowance), right);
    };
    let p4 = difference("****", &["10**"]);
    walked(&p4, 9, (2, 2, &[0], 0));
    let p5 = difference("**", &["1*", "0*"]);
    walked(&p5, 9, (1, 2, &[], 65_535));
    walked(&p5, 1, (3, 1, &[], 0));
    let p7 = difference("**", &["00", "01", "10"]);
    walked(&p7, 9, (2, 3, &[0xC0], 0));
    assert_eq!([p4, p5, p7].map(|figure| walk::ceiling(&figure)), [3, 3, 13]);
}

#[test]
fn p10_a_cut_beside_the_base_is_dropped() {
    assert_eq!(tidy(&difference("1*", &["0*"])), Some(difference("1*", &[])));
}

#[test]
fn the_greatest_allowance_is_taken() {
    let p5 = bytes(&r("**", &["1*", "0*"]));
    let answer = calls::diff_empty(2, &p5, u32::MAX, 1).unwrap();
    assert_eq!((answer.number, answer.count, answer.index), (1, 2, 65_535));
}
