//! Fixed questions with the answers that docs/FORMAT.md and docs/DECISIONS.md give for them.

use crate::notation::{c, f, h, r, w1};
use crate::requests;

/// A question, its answer, and the place that settles it.
pub struct Case {
    pub source: &'static str,
    pub question: String,
    pub answer: String,
}

/// All fixed cases: the readings, the document's figures and slips, those of the requests, then
/// the desk's exercises.
pub fn all() -> Vec<Case> {
    let readings = [
        parts(),
        record_order(),
        membership_order(),
        kind_order(),
        whole_file(),
        call_order(),
        result_order(),
        operands(),
        algebra(),
        fields(),
        views(),
        reading_on(),
        walk(),
        ceiling(),
    ];
    let figures = [proved(), written_figures(), limits(), sentences(), slips()];
    let paper = readings.into_iter().chain(figures).flatten();
    paper.chain(requests::all()).chain(exercises()).collect()
}

pub fn case(source: &'static str, question: impl Into<String>, answer: impl Into<String>) -> Case {
    Case { source, question: question.into(), answer: answer.into() }
}

/// Operand, offset and the other parts.
fn parts() -> Vec<Case> {
    let one = f(4, &[r("****", &[])]);
    let bad = f(4, &[r("****", &[]), "0600020002FFFF0F".to_string()]);
    let many = r("****", &["1***"; 65]);
    vec![
        case("A1", "region_tidy - 9", "15 1 0 0 0 65535 -"),
        case("A1", "ceiling 4 -", "15 1 0 0 0 65535 -"),
        case("A1", "read_on - 0", "15 1 0 0 0 65535 0"),
        case("A1", "view - 0 0", "15 1 0 0 0 65535 - 0"),
        case("A2", format!("cube_in 4 {} -", c("10**")), "12 2 0 0 0 65535 -"),
        case("A3", format!("region_tidy {bad} 99"), "13 1 12 0 0 65535 -"),
        case("A4", format!("ceiling 4 {}00", r("****", &[])), "17 1 0 0 0 65535 -"),
        case("A5", format!("read_on {one} 0"), "1 0 6 0 0 65535 12"),
        case("A5", format!("view {one} 0 0"), "1 0 0 0 0 65535 FF 11"),
        case("A5b", "cube_in 321 - -", "10 0 0 0 0 65535 -"),
        case("A5b", format!("region_intersect {} {} 99", w1(4), w1(321)), "10 2 0 0 0 65535 -"),
        case("A5c", format!("diff_in 4 {} {many} 9 9", r("****", &[])), "18 2 0 0 0 65535 -"),
        case("A5c", "equal_fields 66 0 33 33 9999", "18 0 0 0 0 65535 -"),
    ]
}

/// Order inside a record.
fn record_order() -> Vec<Case> {
    vec![
        case("A6", "ceiling 4 030002004100", "18 1 0 0 0 65535 -"),
        case("A6b", "ceiling 4 0100", "15 1 0 0 0 65535 -"),
        case("A6b", "ceiling 4 010002", "17 1 0 0 0 65535 -"),
        case("A6b", "ceiling 4 0000", "17 1 0 0 0 65535 -"),
        case("A6b", "ceiling 4 02000300", "16 1 0 0 0 65535 -"),
        case("A6b", "ceiling 4 02000200", "17 1 0 0 0 65535 -"),
        case("A6c", "ceiling 3 0500020001FE0F", "14 1 0 0 0 65535 -"),
        case("A6d", format!("cube_in 3 FC {}", c("***")), "14 1 0 0 0 65535 -"),
    ]
}

/// The same faults of a record, found by membership.
fn membership_order() -> Vec<Case> {
    vec![
        case("A4", format!("diff_member 4 {}00 00", r("****", &[])), "17 1 0 0 0 65535 -"),
        case("A6", "diff_member 4 030002004100 00", "18 1 0 0 0 65535 -"),
        case("A6b", "diff_member 4 0100 00", "15 1 0 0 0 65535 -"),
        case("A6b", "diff_member 4 010002 00", "17 1 0 0 0 65535 -"),
        case("A6b", "diff_member 4 02000300 00", "16 1 0 0 0 65535 -"),
        case("A6c", "diff_member 3 0500020001FE0F 00", "14 1 0 0 0 65535 -"),
        case("A7", format!("diff_member 4 {} 00", w1(4)), "16 1 0 0 0 65535 -"),
    ]
}

/// A kind out of its place, and the 257th record.
fn kind_order() -> Vec<Case> {
    let full = full();
    let more = full.clone() + &r("****", &[]);
    vec![
        case("A7", format!("ceiling 4 {}", w1(4)), "16 1 0 0 0 65535 -"),
        case("A7", format!("region_tidy {}02000100 99", w1(4)), "16 1 6 0 0 65535 -"),
        case("A7", "region_tidy 02000200 99", "16 1 0 0 0 65535 -"),
        case("A7", "region_tidy 05000100000000 99", "17 1 0 0 0 65535 -"),
        case("A8", format!("region_tidy {full}0000 9999"), "17 1 1542 0 0 65535 -"),
        case("A8", format!("region_tidy {full}02000100 9999"), "16 1 1542 0 0 65535 -"),
        case("A8", format!("region_tidy {full}02000200 9999"), "19 1 1542 0 0 65535 -"),
        case("A8", format!("region_tidy {full}09000200 9999"), "15 1 1542 0 0 65535 -"),
        case("A8", format!("region_member {more} 00"), "19 1 1542 0 0 65535 -"),
        case("A8", format!("region_member {full}0400010000FF 00"), "16 1 1542 0 0 65535 -"),
    ]
}

/// A file of 256 differences.
fn full() -> String {
    f(4, &vec![r("****", &[]); 256])
}

/// The whole file is checked before any answer.
fn whole_file() -> Vec<Case> {
    let longer = f(4, &[r("****", &[])]) + "00";
    let member = format!("region_member {longer} {}", h("0000"));
    vec![
        case("A8b", member, "15 1 12 0 0 65535 -"),
        case("A8b", format!("view {longer} 0 0"), "15 1 12 0 0 65535 - 0"),
        case("A8b", format!("read_on {longer} 0"), "1 0 6 0 0 65535 12"),
    ]
}

/// Order of a call.
fn call_order() -> Vec<Case> {
    let one = c("1***");
    let covered = r("****", &["****"]);
    let base = r("****", &[]);
    vec![
        case("A9", format!("cube_meet 4 {one} {} 0", c("0***")), "2 0 0 0 0 65535 -"),
        case("A9", format!("cube_meet 4 {one} {} 0", c("*0**")), "22 0 0 0 0 65535 -"),
        case("A9", format!("cube_meet 4 {one} {} 1", c("*0**")), "0 0 0 0 1 65535 9F"),
        case("A10", format!("region_empty {} 0 0", w1(4)), "22 0 0 0 0 65535 -"),
        case("A10", format!("diff_empty 4 {covered} 9 0"), "22 0 0 0 0 65535 -"),
        case("A10", format!("diff_empty 4 {base} 0 0"), "22 0 0 0 0 65535 -"),
        case("A11", format!("region_intersect {} {}00 0", w1(4), w1(5)), "15 2 6 0 0 65535 -"),
        case("A11", format!("region_intersect {} {} 0", w1(4), w1(5)), "20 0 0 0 0 65535 -"),
    ]
}

/// 33 cuts of W 8 that differ in their first six positions and end in these two.
fn few(last: &str) -> Vec<String> {
    (0..33).map(|j| format!("{j:06b}{last}")).collect()
}

/// 18 before 19, and both judged on the tidied result.
fn result_order() -> Vec<Case> {
    let free = "********";
    let (left, right) = (few("**"), few("11"));
    let left: Vec<&str> = left.iter().map(String::as_str).collect();
    let mut right: Vec<&str> = right.iter().map(String::as_str).collect();
    let sixteen = r(free, &[]).repeat(16);
    let x = f(8, &[sixteen.clone(), r(free, &left)]);
    let y = f(8, &[sixteen, r(free, &right)]);
    right.push(free);
    let z = r(free, &right);
    let repeated = f(4, &[r("****", &["1***"; 65])]);
    let only_kind_1 = "0 0 0 0 6 65535 040001000800";
    vec![
        case("A12", format!("region_intersect {x} {y} 0"), "18 0 0 0 0 65535 -"),
        case("A13", format!("diff_intersect 8 {} {z} 99", r(free, &left)), only_kind_1),
        case("A13", format!("region_tidy {} 99", f(8, &[z])), only_kind_1),
        case("A13b", format!("region_tidy {repeated} 999"), "18 1 6 0 0 65535 -"),
    ]
}

/// What W an operand has, and what comes after it.
fn operands() -> Vec<Case> {
    let four = c("****");
    vec![
        case("A14", format!("region_less {} {} 99", w1(4), r("*****", &[])), "17 2 0 0 0 65535 -"),
        case("A14", format!("region_less {} {} 99", w1(3), r("***1", &[])), "14 2 0 0 0 65535 -"),
        case("A14", "region_less - - 99", "15 1 0 0 0 65535 -"),
        case("A15", "cube_in 0 - -", "10 0 0 0 0 65535 -"),
        case("A15", format!("cube_in 65540 {four} {four}"), "10 0 0 0 0 65535 -"),
        case("A16", "diff_member 4 - -", "15 1 0 0 0 65535 -"),
        case("A16", format!("diff_member 4 {} 08", r("****", &[])), "11 0 0 0 0 65535 -"),
    ]
}

/// Subtraction, inclusion and tidying.
fn algebra() -> Vec<Case> {
    let reaching = format!("diff_less 2 {} {} 99", r("**", &[]), r("1*", &["01"]));
    let outside = format!("diff_less 2 {} {} 99", r("0*", &[]), r("1*", &["0*"]));
    let within = format!("diff_in 2 {} {} 99 1", r("1*", &["10"]), r("**", &["10"]));
    let nothing_allowed = format!("diff_in 2 {0} {0} 0 1", r("**", &[]));
    let syntactic = f(2, &[r("**", &["1*", "11", "1*", "0*"])]);
    let tidied = "0 0 0 0 15 65535 0400010002000700020003FFBFAF7F";
    vec![
        case("A17", reaching, "0 0 0 0 19 65535 0400010002000500020001FFBF04000200006F"),
        case("A17", outside, "0 0 0 0 18 65535 04000100020004000200007F04000200007F"),
        case("A18", within, "1 0 0 3 0 65535 -"),
        case("A18", nothing_allowed, "3 0 0 0 0 0 -"),
        case("A19", format!("region_tidy {syntactic} 99"), tidied),
    ]
}

/// Fields and prefixes.
fn fields() -> Vec<Case> {
    let free = format!("0 0 0 0 22 65535 {}", r(&"*".repeat(66), &[]));
    vec![
        case("A20", "equal_fields 3 0 1 2 99", "0 0 0 0 10 65535 0800020004FF6F9FDBE7"),
        case("A21", "prefix 8 0 8 0 00 99", "0 0 0 0 2 65535 FFFF"),
        case("A21", "prefix 8 18446744073709551615 2 1 00 99", "21 0 0 0 0 65535 -"),
        case("A21", "equal_fields 66 0 34 33 9999", "21 0 0 0 0 65535 -"),
        case("A22", "prefix 9 0 9 1 80 99", "11 0 0 0 0 65535 -"),
        case("A22", "prefix 9 0 9 1 8000 99", "0 0 0 0 3 65535 BFFFFF"),
        case("A22", "prefix 9 0 9 9 8040 99", "11 0 0 0 0 65535 -"),
        case("A23", "equal_fields 66 33 33 33 22", free),
    ]
}

/// The wider cube and the view's index.
fn views() -> Vec<Case> {
    let one = f(4, &[r("****", &[])]);
    let same = c("1***");
    let neither = format!("wider 4 {} {}", c("1*0*"), c("10**"));
    vec![
        case("A24", format!("wider 4 {same} {same}"), format!("1 0 0 0 0 65535 {same}")),
        case("A24", neither, "2 0 0 0 0 65535 -"),
        case("A25", format!("view {one} 0 1"), "23 0 0 0 0 65535 - 0"),
        case("A25", format!("view {one} 1 0"), "23 0 0 0 0 65535 - 0"),
    ]
}

fn reading_on() -> Vec<Case> {
    let one = f(4, &[r("****", &[])]);
    let base = r("****", &[]);
    let more = full() + &base;
    vec![
        case("A26", format!("read_on {} 0", w1(4)), "2 0 0 0 0 65535 0"),
        case("A26", format!("read_on {}02000200 0", w1(4)), "17 1 6 0 0 65535 0"),
        case("A27", format!("read_on {one} 1"), "15 1 1 0 0 65535 1"),
        case("A27", format!("read_on {one} 2"), "17 1 2 0 0 65535 2"),
        case("A27", format!("read_on {one} 3"), "15 1 3 0 0 65535 3"),
        case("A27", format!("read_on {one} 4"), "16 1 4 0 0 65535 4"),
        case("A27", format!("read_on {one} 5"), "15 1 5 0 0 65535 5"),
        case("A28", format!("read_on {} 7", w1(4)), "15 1 7 0 0 65535 7"),
        case("A29", format!("read_on {} 6", w1(0)), "10 1 0 0 0 65535 6"),
        case("A29", format!("read_on {base} 99"), "16 1 0 0 0 65535 99"),
        case("A30", format!("read_on {}0900020005{base} 11", w1(4)), "1 0 11 0 0 65535 17"),
        case("A30b", format!("read_on {more} 1542"), "1 0 1542 0 0 65535 1548"),
    ]
}

fn walk() -> Vec<Case> {
    let passed = r("1*", &["00", "01"]);
    let two_cuts = r("**", &["1*", "0*"]);
    let covered = r("****", &["****"]);
    let once = f(4, &[covered.clone()]);
    let twice = f(4, &[covered.clone(), covered]);
    vec![
        case("A31", format!("diff_empty 2 {passed} 99 1"), "2 0 0 1 1 0 80"),
        case("A32", format!("diff_empty 2 {two_cuts} 2 1"), "1 0 0 2 0 65535 -"),
        case("A32", format!("diff_empty 2 {two_cuts} 1 1"), "3 0 0 1 0 0 -"),
        case("A33", format!("region_empty {} 0 1", w1(4)), "1 0 0 0 0 65535 -"),
        case("A33", format!("region_empty {once} 0 1"), "3 0 0 0 0 0 -"),
        case("A33", format!("region_empty {twice} 1 1"), "3 0 0 1 0 1 -"),
    ]
}

fn ceiling() -> Vec<Case> {
    let fixed = "1".repeat(320);
    let greatest = r(&"*".repeat(320), &[fixed.as_str(); 64]);
    vec![
        case("A34", format!("ceiling 2 {}", r("1*", &["11"])), "0 0 0 2 0 65535 -"),
        case("A34", format!("ceiling 2 {}", r("**", &["1*", "1*"])), "0 0 0 3 0 65535 -"),
        case("A34", format!("ceiling 2 {}", r("**", &["**", "11"])), "0 0 0 1 0 65535 -"),
        case("A34", format!("ceiling 320 {greatest}"), "0 0 0 4294967295 0 65535 -"),
    ]
}

/// P1 to P7, by the calls that show them. A prefix over all positions writes the cube drawn.
fn proved() -> Vec<Case> {
    let p4 = r("****", &["10**"]);
    let p5 = r("**", &["1*", "0*"]);
    let p7 = r("**", &["00", "01", "10"]);
    vec![
        case("P1", "prefix 4 0 4 2 80 1", "0 0 0 0 1 65535 9F"),
        case("P1", "view 04000100040004000200009F 0 0", "1 0 0 0 0 65535 9F 11"),
        case("P2", "prefix 3 0 3 3 A0 1", "0 0 0 0 1 65535 9B"),
        case("P2", "cube_meet 3 9B FF 1", "0 0 0 0 1 65535 9B"),
        case("P3", "cube_in 2 50 FF", "14 1 0 0 0 65535 -"),
        case("P4", format!("diff_member 4 {p4} {}", h("1000")), "2 0 0 0 0 65535 -"),
        case("P4", format!("diff_member 4 {p4} {}", h("0000")), "1 0 0 0 0 0 -"),
        case("P4", format!("diff_empty 4 {p4} 9 1"), "2 0 0 2 1 0 00"),
        case("P4", format!("diff_empty 4 {p4} 99 1"), "2 0 0 2 1 0 00"),
        case("P4", format!("ceiling 4 {p4}"), "0 0 0 3 0 65535 -"),
        case("P5", format!("diff_empty 2 {p5} 99 1"), "1 0 0 2 0 65535 -"),
        case("P5", format!("ceiling 2 {p5}"), "0 0 0 3 0 65535 -"),
        case("P6", format!("diff_empty 2 {p5} 1 1"), "3 0 0 1 0 0 -"),
        case("P7", format!("diff_empty 2 {p7} 9 1"), "2 0 0 3 1 0 C0"),
        case("P7", format!("diff_empty 2 {p7} 99 1"), "2 0 0 3 1 0 C0"),
        case("P7", format!("ceiling 2 {p7}"), "0 0 0 13 0 65535 -"),
    ]
}

/// P8 to P10 and the question program's file.
fn written_figures() -> Vec<Case> {
    let p8 = "0 0 0 0 19 65535 0400010002000500020001FFBF0400020000AF";
    let less = format!("{} {}", r("**", &[]), r("1*", &["11"]));
    let file_less = format!("{} {}", f(2, &[r("**", &[])]), r("1*", &["11"]));
    let p10 = f(2, &[r("1*", &["0*"])]);
    let program = "0400010004000500020001FF9F";
    vec![
        case("P8", format!("diff_less 2 {less} 19"), p8),
        case("P8", format!("diff_less 2 {less} 18"), "22 0 0 0 0 65535 -"),
        case("P8", format!("region_less {file_less} 19"), p8),
        case("P9", "equal_fields 2 0 1 1 8", "0 0 0 0 8 65535 0600020002FF6F9F"),
        case("P9", "equal_fields 2 0 1 1 7", "22 0 0 0 0 65535 -"),
        case("P10", format!("region_tidy {p10} 12"), "0 0 0 0 12 65535 0400010002000400020000BF"),
        case("program", format!("region_empty {program} 1000000 1"), "2 0 0 2 1 0 00"),
    ]
}

/// The greatest n, W and count that pass, and the least that do not.
fn limits() -> Vec<Case> {
    let (free, fixed) = (c(&"*".repeat(320)), c(&"1".repeat(320)));
    let most = r("****", &["10**"; 64]);
    let more = r("****", &["10**"; 65]);
    let file = format!("region_tidy {} 13", f(4, &[most.clone()]));
    let tidied = "0 0 0 0 13 65535 0400010004000500020001FF9F";
    vec![
        case("n 32", "equal_fields 64 0 32 32 9999", halves(64)),
        case("n 33", "equal_fields 66 0 33 33 9999", "18 0 0 0 0 65535 -"),
        case("W 320", format!("cube_in 320 {fixed} {free}"), "1 0 0 0 0 65535 -"),
        case("W 320", format!("read_on {} 0", w1(320)), "2 0 0 0 0 65535 0"),
        case("W 321", format!("cube_in 321 {fixed} {free}"), "10 0 0 0 0 65535 -"),
        case("W 321", format!("read_on {} 0", w1(321)), "10 1 0 0 0 65535 0"),
        case("count 64", format!("diff_empty 4 {most} 99 1"), "2 0 0 2 1 0 00"),
        case("count 64", file, tidied),
        case("count 65", format!("diff_empty 4 {more} 99 1"), "18 1 0 0 0 65535 -"),
        case("256 differences", format!("region_member {} 00", full()), "1 0 0 0 0 0 -"),
    ]
}

/// The record for two halves of W that are equal, drawn cut by cut.
fn halves(w: usize) -> String {
    let drawing = |i: usize, first: char, second: char| {
        let value = |p| match p {
            _ if p == i => first,
            _ if p == i + w / 2 => second,
            _ => '*',
        };
        (0..w).map(value).collect::<String>()
    };
    let both = |i| [drawing(i, '0', '1'), drawing(i, '1', '0')];
    let cuts: Vec<String> = (0..w / 2).flat_map(both).collect();
    let cuts: Vec<&str> = cuts.iter().map(String::as_str).collect();
    let record = r(&"*".repeat(w), &cuts);
    format!("0 0 0 0 {} 65535 {record}", record.len() / 2)
}

/// Sentences of the document that have no figure: only meeting cuts count for the ceiling, and a
/// 65th cut is no refusal in inclusion.
fn sentences() -> Vec<Case> {
    let most = r("****", &["10**"; 64]);
    vec![
        case("ceiling", format!("ceiling 2 {}", r("1*", &["00"])), "0 0 0 1 0 65535 -"),
        case("ceiling", format!("ceiling 2 {}", r("1*", &["0*", "11"])), "0 0 0 2 0 65535 -"),
        case("65th cut", format!("diff_in 4 {most} {} 99 1", r("0***", &[])), "2 0 0 3 1 0 C0"),
    ]
}

/// The slips that no figure above shows by itself.
fn slips() -> Vec<Case> {
    let p8 = f(2, &[r("**", &["1*"]), r("11", &[])]);
    let conflict = r("**", &["11", "10", "0*"]);
    vec![
        case("slip 2", format!("region_member {p8} {}", h("11")), "1 0 0 0 0 1 -"),
        case("slip 2", format!("region_member {p8} {}", h("10")), "2 0 0 0 0 65535 -"),
        case("slip 3", format!("diff_member 4 {} {}", r("10**", &[]), h("1000")), "1 0 0 0 0 0 -"),
        case(
            "slip 3",
            format!("diff_member 4 {} {}", r("10**", &[]), h("0001")),
            "2 0 0 0 0 65535 -",
        ),
        case("slip 4", format!("cube_meet 2 {} 50 1", c("**")), "14 2 0 0 0 65535 -"),
        case("slip 5", format!("diff_empty 2 {conflict} 99 1"), "1 0 0 3 0 65535 -"),
    ]
}

/// The exercises of docs/TRAINING.md that are no case of the requests.
fn exercises() -> Vec<Case> {
    let closed = r("***", &["100"]);
    let p5 = r("**", &["1*", "0*"]);
    let less = format!("{} {}", r("**", &[]), r("1*", &["11"]));
    let p8 = f(2, &[r("**", &["1*"]), r("11", &[])]);
    vec![
        case("training", format!("diff_member 3 {closed} {}", h("100")), "2 0 0 0 0 65535 -"),
        case("training", format!("diff_member 3 {closed} {}", h("001")), "1 0 0 0 0 0 -"),
        case("training", format!("diff_empty 2 {p5} 9 1"), "1 0 0 2 0 65535 -"),
        case("training", format!("diff_empty 2 {} 9 1", r("**", &["1*"])), "2 0 0 2 1 0 00"),
        case("training", format!("diff_less 2 {less} 19"), format!("0 0 0 0 19 65535 {p8}")),
        case("training", format!("region_member {p8} {}", h("11")), "1 0 0 0 0 1 -"),
        case("training", format!("region_member {p8} {}", h("10")), "2 0 0 0 0 65535 -"),
        case("training", "prefix 4 0 2 2 80 1", "0 0 0 0 1 65535 9F"),
        case("training", format!("diff_member 4 {} 80", r("10**", &[])), "1 0 0 0 0 0 -"),
        case("training", "cube_in 2 50 5F", "14 1 0 0 0 65535 -"),
        case("training", "cube_in 2 5F 5F", "1 0 0 0 0 65535 -"),
        case(
            "training",
            format!("diff_empty 2 {} 9 1", r("1*", &["0*", "1*"])),
            "1 0 0 1 0 65535 -",
        ),
        case("training", format!("diff_empty 2 {} 9 1", r("1*", &["0*"])), "2 0 0 1 1 0 80"),
    ]
}
