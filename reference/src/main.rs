//! The commands of the reference.

use std::env;
use std::fs;
use std::io::{self, BufWriter, Read, Write};
use std::process::ExitCode;

use reference::agree::agree;
use reference::cases;
use reference::coverage::Coverage;
use reference::desk;
use reference::generator::Lines;
use reference::program;

const USAGE: &str = "\
reference answer                         answers the questions on standard input
reference generate SEED N                writes N questions
reference vectors                        writes the fixed questions
reference coverage QUESTIONS ANSWERS     counts lines by call and number
reference agree QUESTIONS DESK ANSWERS   compares the desk's answers with these
reference question                       answers for the region file on standard input";

fn main() -> ExitCode {
    let arguments: Vec<String> = env::args().skip(1).collect();
    let words: Vec<&str> = arguments.iter().map(String::as_str).collect();
    match run(&words) {
        Ok(code) => code,
        // Whoever reads the lines may stop early.
        Err(error) if error.kind() == io::ErrorKind::BrokenPipe => ExitCode::SUCCESS,
        Err(error) => {
            eprintln!("reference: {error}");
            ExitCode::from(2)
        }
    }
}

fn run(words: &[&str]) -> io::Result<ExitCode> {
    match words {
        ["answer"] => answer()?,
        ["generate", seed, n] => generate(number(seed)?, number(n)?)?,
        ["vectors"] => vectors()?,
        ["coverage", questions, answers] => coverage(questions, answers)?,
        ["agree", questions, desk, answers] => return compare(questions, desk, answers),
        ["question"] => question()?,
        _ => return Err(io::Error::other(format!("the commands are\n{USAGE}"))),
    }
    Ok(ExitCode::SUCCESS)
}

fn number(word: &str) -> io::Result<u64> {
    word.parse().map_err(|_| io::Error::other(format!("{word} is no number")))
}

fn answer() -> io::Result<()> {
    let output = BufWriter::new(io::stdout().lock());
    desk::answer_all(io::stdin().lock(), output)
}

fn generate(seed: u64, n: u64) -> io::Result<()> {
    let mut output = BufWriter::new(io::stdout().lock());
    let mut lines = Lines::new(seed);
    for _ in 0..n {
        let line = lines.next().expect("lines do not end");
        writeln!(output, "{line}")?;
    }
    output.flush()
}

fn vectors() -> io::Result<()> {
    let mut output = BufWriter::new(io::stdout().lock());
    for case in cases::all() {
        writeln!(output, "{}", case.question)?;
    }
    output.flush()
}

fn coverage(questions: &str, answers: &str) -> io::Result<()> {
    let (questions, answers) = (text(questions)?, text(answers)?);
    let mut coverage = Coverage::default();
    for (question, answer) in questions.split_terminator('\n').zip(answers.lines()) {
        coverage.count(question, answer);
    }
    print!("{}", coverage.table());
    Ok(())
}

fn compare(questions: &str, desk: &str, answers: &str) -> io::Result<ExitCode> {
    let agreement = agree(&text(questions)?, &text(desk)?, &text(answers)?);
    print!("{}", agreement.report);
    let code = if agreement.all { 0 } else { 1 };
    Ok(ExitCode::from(code))
}

/// A file as text; characters that are none become replacement characters.
fn text(path: &str) -> io::Result<String> {
    Ok(String::from_utf8_lossy(&fs::read(path)?).into_owned())
}

fn question() -> io::Result<()> {
    let mut input = Vec::new();
    let most = program::MOST_INPUT as u64;
    // One byte more is enough to know that there are too many.
    io::stdin().lock().take(most + 1).read_to_end(&mut input)?;
    print!("{}", program::question(&input));
    Ok(())
}
