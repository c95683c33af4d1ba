//! The desk's lines: a question on one line, its answer on one line.

use std::io::{self, BufRead, Write};

use crate::answer::{Number, Outcome, Refusal, NONE_DECIDED};
use crate::calls;
use crate::hex;

/// The most characters of a line, its newline not counted.
pub const LONGEST_LINE: usize = 524_288;
pub const MOST_ROOM: u64 = 1_048_576;
pub const MOST_ALLOWANCE: u64 = 4_294_967_295;
pub const UNREADABLE: &str = "unreadable";

/// What an argument is. W, the other numbers, an allowance and a room are numbers, all else bytes.
#[derive(Clone, Copy, Debug, PartialEq, Eq)]
pub enum Sort {
    W,
    Cube,
    Record,
    File,
    Header,
    Value,
    Other,
    Allowance,
    Room,
}

/// The name of each call and its arguments.
pub const CALLS: [(&str, &[Sort]); 18] = {
    use Sort::*;
    [
        ("cube_meet", &[W, Cube, Cube, Room]),
        ("cube_in", &[W, Cube, Cube]),
        ("wider", &[W, Cube, Cube]),
        ("diff_member", &[W, Record, Header]),
        ("region_member", &[File, Header]),
        ("diff_intersect", &[W, Record, Record, Room]),
        ("region_intersect", &[File, File, Room]),
        ("diff_less", &[W, Record, Record, Room]),
        ("region_less", &[File, Record, Room]),
        ("diff_empty", &[W, Record, Allowance, Room]),
        ("region_empty", &[File, Allowance, Room]),
        ("diff_in", &[W, Record, Record, Allowance, Room]),
        ("ceiling", &[W, Record]),
        ("region_tidy", &[File, Room]),
        ("prefix", &[W, Other, Other, Other, Value, Room]),
        ("equal_fields", &[W, Other, Other, Other, Room]),
        ("view", &[File, Other, Other]),
        ("read_on", &[File, Other]),
    ]
};

impl Sort {
    /// The greatest number of this sort; None for bytes.
    pub fn most(self) -> Option<u64> {
        match self {
            Sort::W | Sort::Other => Some(u64::MAX),
            Sort::Allowance => Some(MOST_ALLOWANCE),
            Sort::Room => Some(MOST_ROOM),
            _ => None,
        }
    }

    fn read(self, word: &[u8]) -> Option<Argument> {
        match self.most() {
            Some(most) => read_number(word, most).map(Argument::Number),
            None => read_bytes(word).map(Argument::Bytes),
        }
    }
}

#[derive(Clone, Debug, PartialEq, Eq)]
pub enum Argument {
    Number(u64),
    Bytes(Vec<u8>),
}

impl Argument {
    pub fn number(&self) -> u64 {
        match self {
            Argument::Number(number) => *number,
            Argument::Bytes(_) => panic!("the call's table has a number here"),
        }
    }

    pub fn bytes(&self) -> &[u8] {
        match self {
            Argument::Bytes(bytes) => bytes,
            Argument::Number(_) => panic!("the call's table has bytes here"),
        }
    }
}

/// A question that can be asked: its arguments are of the call's sorts.
#[derive(Clone, Debug, PartialEq, Eq)]
pub struct Question {
    pub name: &'static str,
    pub arguments: Vec<Argument>,
}

/// The arguments of a call; None if there is no such call.
pub fn sorts(name: &[u8]) -> Option<(&'static str, &'static [Sort])> {
    let mut calls = CALLS.into_iter();
    calls.find(|(known, _)| known.as_bytes() == name)
}

/// Answers each line of the input; a last line without a newline counts.
pub fn answer_all(mut input: impl BufRead, mut output: impl Write) -> io::Result<()> {
    let mut line = Vec::new();
    while input.read_until(b'\n', &mut line)? > 0 {
        let question = line.strip_suffix(b"\n").unwrap_or(&line);
        writeln!(output, "{}", answer(question))?;
        line.clear();
    }
    output.flush()
}

/// The answer to a line given without its newline.
pub fn answer(line: &[u8]) -> String {
    match read(line) {
        Some(question) => ask(&question),
        None => UNREADABLE.to_string(),
    }
}

fn read(line: &[u8]) -> Option<Question> {
    if line.len() > LONGEST_LINE {
        return None;
    }
    let mut words = line.split(|&character| character == b' ');
    let (name, sorts) = sorts(words.next()?)?;
    let words: Vec<&[u8]> = words.collect();
    if words.len() != sorts.len() {
        return None;
    }
    let both = sorts.iter().zip(words);
    let arguments = both.map(|(sort, word)| sort.read(word)).collect::<Option<_>>()?;
    Some(Question { name, arguments })
}

/// Decimal digits only, at least one, and no more than the most.
fn read_number(word: &[u8], most: u64) -> Option<u64> {
    if word.is_empty() {
        return None;
    }
    let with_digit = |number: u64, &character: &u8| {
        let digit = char::from(character).to_digit(10)?;
        number.checked_mul(10)?.checked_add(u64::from(digit))
    };
    let number = word.iter().try_fold(0, with_digit)?;
    (number <= most).then_some(number)
}

fn read_bytes(word: &[u8]) -> Option<Vec<u8>> {
    match word {
        b"" => None,
        b"-" => Some(Vec::new()),
        _ => hex::read(word),
    }
}

/// The answer to a question.
pub fn ask(question: &Question) -> String {
    let n = |i: usize| question.arguments[i].number();
    let b = |i: usize| question.arguments[i].bytes();
    // The limits of these two sorts are below usize's and u32's.
    let room = |i: usize| n(i) as usize;
    let allowance = |i: usize| n(i) as u32;
    match question.name {
        "cube_meet" => written(calls::cube_meet(n(0), b(1), b(2), room(3))),
        "cube_in" => written(calls::cube_in(n(0), b(1), b(2))),
        "wider" => wider(n(0), b(1), b(2)),
        "diff_member" => written(calls::diff_member(n(0), b(1), b(2))),
        "region_member" => written(calls::region_member(b(0), b(1))),
        "diff_intersect" => written(calls::diff_intersect(n(0), b(1), b(2), room(3))),
        "region_intersect" => written(calls::region_intersect(b(0), b(1), room(2))),
        "diff_less" => written(calls::diff_less(n(0), b(1), b(2), room(3))),
        "region_less" => written(calls::region_less(b(0), b(1), room(2))),
        "diff_empty" => written(calls::diff_empty(n(0), b(1), allowance(2), room(3))),
        "region_empty" => written(calls::region_empty(b(0), allowance(1), room(2))),
        "diff_in" => written(calls::diff_in(n(0), b(1), b(2), allowance(3), room(4))),
        "ceiling" => written(calls::ceiling(n(0), b(1))),
        "region_tidy" => written(calls::region_tidy(b(0), room(1))),
        "prefix" => written(calls::prefix(n(0), n(1), n(2), n(3), b(4), room(5))),
        "equal_fields" => written(calls::equal_fields(n(0), n(1), n(2), n(3), room(4))),
        "view" => view(b(0), n(1), n(2)),
        "read_on" => read_on(b(0), n(1)),
        _ => panic!("the table of calls has no other name"),
    }
}

fn written(outcome: Outcome) -> String {
    match outcome {
        Ok(answer) => format!(
            "{} 0 0 {} {} {} {}",
            answer.number,
            answer.count,
            answer.bytes.len(),
            answer.index,
            stretch(&answer.bytes)
        ),
        Err(refusal) => format!("{} -", refused(refusal)),
    }
}

fn wider(w: u64, a: &[u8], b: &[u8]) -> String {
    match calls::wider(w, a, b) {
        Ok(Some(bytes)) => format!("{} {}", plain(1, 0), stretch(bytes)),
        Ok(None) => format!("{} -", plain(2, 0)),
        Err(refusal) => format!("{} -", refused(refusal)),
    }
}

fn view(file: &[u8], d: u64, i: u64) -> String {
    match calls::view(file, d, i) {
        Ok(range) => {
            let start = range.start;
            format!("{} {} {start}", plain(1, 0), stretch(&file[range]))
        }
        Err(refusal) => format!("{} - 0", refused(refusal)),
    }
}

fn read_on(file: &[u8], place: u64) -> String {
    let step = calls::read_on(file, place);
    let parts = match step.found {
        Ok(Some(offset)) => plain(1, offset),
        Ok(None) => plain(2, 0),
        Err(refusal) => refused(refusal),
    };
    format!("{parts} {}", step.place)
}

/// The six parts of an answer that counts and writes nothing, and that no difference decided.
fn plain(number: Number, offset: u64) -> String {
    format!("{number} 0 {offset} 0 0 {NONE_DECIDED}")
}

/// The six parts of a refusal.
fn refused(refusal: Refusal) -> String {
    let Refusal { number, operand, offset } = refusal;
    format!("{number} {operand} {offset} 0 0 {NONE_DECIDED}")
}

fn stretch(bytes: &[u8]) -> String {
    if bytes.is_empty() {
        return "-".to_string();
    }
    hex::capital(bytes)
}
