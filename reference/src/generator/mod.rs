//! Seeded questions: valid, nearly valid, extreme and unreadable, for all calls.
//!
//! Lines come in rounds. A round has one line for each aim, each flaw and each extreme, as many
//! free ones, and shuffles them; so a few thousand lines reach every number of every call.

pub mod aims;
mod crowds;
mod damage;
mod draw;
pub mod random;
mod shapes;
mod twists;
pub mod unreadable;

use crate::desk::{answer, ask, Argument, Question, CALLS, UNREADABLE};
use crate::hex;
use aims::Aim;
use draw::Theme;
use random::Random;
use twists::Twist;
use unreadable::{flawed, long_line, Flaw, FLAWS};

/// Long lines are large, so only each line of this number is one.
const LONG_LINE_EVERY: u64 = 4_000;

/// How often a line is drawn again until it has what is wanted of it.
const TRIES: usize = 10_000;

#[derive(Clone, Copy)]
enum Kind {
    Aimed(Aim),
    Flawed(Flaw),
    Extreme(&'static str, Theme, &'static [Twist]),
    Free,
}

/// Endless questions, without their newlines.
pub struct Lines {
    random: Random,
    round: Vec<Kind>,
    count: u64,
}

impl Lines {
    pub fn new(seed: u64) -> Lines {
        Lines { random: Random::new(seed), round: Vec::new(), count: 0 }
    }
}

impl Iterator for Lines {
    type Item = String;

    fn next(&mut self) -> Option<String> {
        self.count += 1;
        if self.count % LONG_LINE_EVERY == 0 {
            let turn = self.count / LONG_LINE_EVERY;
            return Some(long_line(turn % 2 == 1, turn / 2 % 2 == 0));
        }
        if self.round.is_empty() {
            self.round = round(&mut self.random);
        }
        let kind = self.round.pop()?;
        Some(line(&mut self.random, kind))
    }
}

fn round(random: &mut Random) -> Vec<Kind> {
    let mut round: Vec<Kind> = aims::all().into_iter().map(Kind::Aimed).collect();
    round.extend(FLAWS.iter().copied().map(Kind::Flawed));
    round.extend(extremes());
    round.extend(vec![Kind::Free; round.len()]);
    random.shuffle(&mut round);
    round
}

/// What free lines have too seldom: great W for every call; many cuts or differences where a call
/// can read or write them; ceilings about the greatest; long walks; late differences and pieces
/// that decide, and allowances that end before them; full files with damage; damage beside two W.
fn extremes() -> Vec<Kind> {
    let mut extremes = Vec::new();
    for (name, _) in CALLS {
        let mut add = |theme, twist| extremes.push(Kind::Extreme(name, theme, twist));
        add(Theme::Wide, &[]);
        let many_cuts = ["equal_fields", "ceiling"].contains(&name);
        if many_cuts || name.starts_with("diff") || name.starts_with("region") {
            add(Theme::Cuts, &[]);
        }
        if name.starts_with("region") || name == "read_on" {
            add(Theme::Differences, &[]);
        }
        if name == "region_intersect" || name == "region_less" {
            add(Theme::LastCuts, &[]);
            add(Theme::Differences, &[Twist::Room]);
            add(Theme::Cuts, &[Twist::Room]);
        }
        if name == "region_intersect" {
            add(Theme::Plain, &[Twist::W, Twist::Damage]);
            add(Theme::Plain, &[Twist::W, Twist::Damage]);
        }
        if name == "ceiling" {
            (0..7).for_each(|_| add(Theme::Cuts, &[]));
        }
        if name == "prefix" {
            add(Theme::Deep, &[Twist::Damage]);
            add(Theme::Wide, &[Twist::Damage]);
            (0..2).for_each(|_| add(Theme::Plain, &[Twist::Numbers]));
            add(Theme::Plain, &[Twist::Room]);
        }
        if name == "region_tidy" || name == "region_empty" {
            add(Theme::Differences, &[Twist::Damage]);
        }
        if name.ends_with("empty") || name == "diff_in" {
            add(Theme::Deep, &[]);
            add(Theme::Deep, &[Twist::Allowance]);
        }
        if name == "region_member" || name == "region_empty" || name == "diff_in" {
            add(Theme::Late, &[]);
            add(Theme::Latest, &[]);
        }
        if name == "region_empty" || name == "diff_in" {
            add(Theme::Late, &[Twist::Between]);
            add(Theme::Latest, &[Twist::Between]);
        }
    }
    extremes
}

fn line(random: &mut Random, kind: Kind) -> String {
    match kind {
        Kind::Aimed(aim) => {
            let question = aimed(random, aim);
            text(random, &question)
        }
        Kind::Flawed(flaw) => unreadable_line(random, flaw),
        Kind::Extreme(name, theme, twist) => {
            let question = question(random, name, theme, twist);
            text(random, &question)
        }
        Kind::Free => {
            let question = free(random);
            text(random, &question)
        }
    }
}

fn question(random: &mut Random, name: &str, theme: Theme, twists: &[Twist]) -> Question {
    let drawn = draw::question(random, name, theme);
    twists::twisted(random, drawn, twists)
}

/// Up to three twists: two faults in one question show which comes first.
fn free(random: &mut Random) -> Question {
    let (name, _) = random.pick(&CALLS);
    let themes = [Theme::Plain, Theme::Plain, Theme::Plain, Theme::Covered, Theme::Late];
    let theme = random.pick(&themes);
    let count = random.pick(&[0, 0, 1, 1, 1, 2, 3]);
    let twists: Vec<Twist> = (0..count).map(|_| any_twist(random)).collect();
    question(random, name, theme, &twists)
}

fn any_twist(random: &mut Random) -> Twist {
    match random.below(9) {
        0..=3 => Twist::Damage,
        4 => Twist::W,
        5 => Twist::Room,
        6 => Twist::Allowance,
        7 => Twist::Between,
        _ => Twist::Numbers,
    }
}

/// A question whose answer is the aim, drawn again until it is.
fn aimed(random: &mut Random, aim: Aim) -> Question {
    let mut drawn = attempt(random, aim);
    for _ in 0..TRIES {
        if reaches(&drawn, aim) {
            break;
        }
        drawn = attempt(random, aim);
    }
    drawn
}

fn reaches(question: &Question, aim: Aim) -> bool {
    ask(question).starts_with(&format!("{} {} ", aim.number, aim.operand))
}

fn attempt(random: &mut Random, aim: Aim) -> Question {
    let small = random.pick(&[Theme::Plain, Theme::Plain, Theme::Covered]);
    let crowded = random.pick(&[Theme::Cuts, Theme::Differences, Theme::LastCuts]);
    // A room that is short or just enough must not change these answers.
    let room: &[Twist] = if random.one_in(2) { &[] } else { &[Twist::Room] };
    let (theme, twists): (Theme, &[Twist]) = match (aim.number, aim.operand) {
        (3, _) => (small, &[Twist::Allowance]),
        (10 | 20, _) => (small, &[Twist::W]),
        (18 | 19, 0) => (crowded, &[]),
        (11..=19, _) => (small, &[Twist::Damage]),
        (21 | 23, _) => (small, &[Twist::Numbers]),
        (22, _) => (small, &[Twist::Room]),
        _ => (small, room),
    };
    question(random, aim.name, theme, twists)
}

/// A line with this flaw, drawn again until it cannot be read.
fn unreadable_line(random: &mut Random, flaw: Flaw) -> String {
    let mut line = String::new();
    for _ in 0..TRIES {
        let (name, _) = random.pick(&CALLS);
        let question = question(random, name, Theme::Plain, &[]);
        let readable = text(random, &question);
        line = flawed(random, flaw, &readable);
        if answer(line.as_bytes()) == UNREADABLE {
            break;
        }
    }
    line
}

/// The question's line; its digits are sometimes small, its numbers sometimes start with zeros.
fn text(random: &mut Random, question: &Question) -> String {
    let small = random.below(16);
    let mut line = question.name.to_string();
    for argument in &question.arguments {
        line.push(' ');
        line.push_str(&match argument {
            Argument::Number(number) if random.one_in(40) => format!("00{number}"),
            Argument::Number(number) => number.to_string(),
            Argument::Bytes(bytes) if bytes.is_empty() => "-".to_string(),
            Argument::Bytes(bytes) if small == 0 => hex::capital(bytes).to_lowercase(),
            Argument::Bytes(bytes) if small == 1 => mixed(&hex::capital(bytes)),
            Argument::Bytes(bytes) => hex::capital(bytes),
        });
    }
    line
}

/// Every third digit small.
fn mixed(digits: &str) -> String {
    let digit = |(i, digit): (usize, char)| match i % 3 {
        0 => digit.to_ascii_lowercase(),
        _ => digit,
    };
    digits.chars().enumerate().map(digit).collect()
}
