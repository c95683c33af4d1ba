//! The desk's lines: what can be read and what cannot.

use reference::desk::{answer, answer_all, LONGEST_LINE, UNREADABLE};
use reference::generator::unreadable::long_line;

fn readable(line: &str) -> bool {
    answer(line.as_bytes()) != UNREADABLE
}

#[test]
fn a_name_and_its_arguments() {
    assert!(readable("cube_in 4 9F FF"));
    for line in [
        "",
        " ",
        "cube_in",
        "cube_in 4 9F",
        "cube_in 4 9F FF 0",
        "Cube_in 4 9F FF",
        "cube_i 4 9F FF",
        "cube_inn 4 9F FF",
    ] {
        assert!(!readable(line), "{line}");
    }
}

#[test]
fn single_spaces() {
    for line in [
        " cube_in 4 9F FF",
        "cube_in 4 9F FF ",
        "cube_in  4 9F FF",
        "cube_in 4 9F  FF",
        "cube_in\t4 9F FF",
        "cube_in 4 9F FF\r",
    ] {
        assert!(!readable(line), "{line}");
    }
}

#[test]
fn numbers() {
    for number in ["4", "004", "18446744073709551615", "000018446744073709551615"] {
        assert!(readable(&format!("cube_in {number} 9F FF")), "{number}");
    }
    let no_numbers = ["", "+4", "-4", "-", "4x", "0x4", "4.0", "18446744073709551616", "\u{664}"];
    for word in no_numbers {
        assert!(!readable(&format!("cube_in {word} 9F FF")), "{word}");
    }
    assert!(!readable(&format!("cube_in {} 9F FF", "9".repeat(400))));
}

#[test]
fn rooms_and_allowances() {
    assert!(readable("diff_empty 4 0400020000FF 4294967295 1048576"));
    assert!(!readable("diff_empty 4 0400020000FF 4294967296 1048576"));
    assert!(!readable("diff_empty 4 0400020000FF 4294967295 1048577"));
}

#[test]
fn bytes() {
    assert_eq!(answer(b"wider 4 9f fF"), "1 0 0 0 0 65535 FF");
    assert_eq!(answer(b"wider 4 - FF"), "12 1 0 0 0 65535 -");
    for word in ["9", "9FF", "G0", "0x9F", "--", "-9F", "9F-", "9F\u{e9}"] {
        assert!(!readable(&format!("wider 4 {word} FF")), "{word}");
    }
    assert_eq!(answer(b"wider 4 \xFF\xFF FF"), UNREADABLE);
}

#[test]
fn long_lines() {
    for by_zeros in [true, false] {
        let longest = long_line(false, by_zeros);
        assert_eq!(longest.len(), LONGEST_LINE);
        assert!(readable(&longest));
        let longer = long_line(true, by_zeros);
        assert_eq!(longer.len(), LONGEST_LINE + 1);
        assert!(!readable(&longer));
    }
}

#[test]
fn numbers_of_any_size_are_answered() {
    let most = u64::MAX;
    for (line, right) in [
        (format!("prefix 8 {most} {most} {most} 00 0"), "21 0 0 0 0 65535 -"),
        (format!("prefix {most} 0 1 1 00 0"), "10 0 0 0 0 65535 -"),
        (format!("equal_fields 8 {most} 0 1 0"), "21 0 0 0 0 65535 -"),
        (format!("equal_fields 8 0 {most} 1 0"), "21 0 0 0 0 65535 -"),
        (format!("view 040001000400 {most} {most}"), "23 0 0 0 0 65535 - 0"),
    ] {
        assert_eq!(answer(line.as_bytes()), right);
    }
    let beyond = answer(format!("read_on 040001000400 {most}").as_bytes());
    assert_eq!(beyond, format!("15 1 {most} 0 0 65535 {most}"));
}

#[test]
fn each_line_has_an_answer() {
    let answers = |input: &str| {
        let mut output = Vec::new();
        answer_all(input.as_bytes(), &mut output).unwrap();
        String::from_utf8(output).unwrap()
    };
    assert_eq!(answers(""), "");
    assert_eq!(answers("\n"), "unreadable\n");
    assert_eq!(answers("wider 4 FF FF\n"), "1 0 0 0 0 65535 FF\n");
    let last_without_newline = "wider 4 FF FF\n\nwider 0 FF FF";
    assert_eq!(
        answers(last_without_newline),
        "1 0 0 0 0 65535 FF\nunreadable\n10 0 0 0 0 65535 -\n"
    );
}
