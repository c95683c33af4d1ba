//! Twists of a valid question: damage, another W, a tight room or allowance, an allowance that ends
//! between two differences or pieces, extreme numbers.

use super::damage;
use super::draw::{self, Drawn, Theme};
use super::random::Random;
use super::shapes;
use crate::desk::{ask, sorts, Argument, Question, Sort, MOST_ROOM};
use crate::header::Header;
use crate::record;
use crate::region::Region;

/// The longest walk that a generated question may cost.
pub const LONGEST_WALK: u64 = 200_000;

#[derive(Clone, Copy, Debug, PartialEq, Eq)]
pub enum Twist {
    Damage,
    W,
    Room,
    Allowance,
    Between,
    Numbers,
}

/// The question with these twists. A call that has nothing to twist stays as it is.
pub fn twisted(random: &mut Random, mut drawn: Drawn, twists: &[Twist]) -> Question {
    for twist in twists {
        match twist {
            Twist::Damage => damage_one(random, &mut drawn),
            Twist::W => change_w(random, &mut drawn),
            Twist::Numbers => change_number(random, &mut drawn),
            Twist::Allowance => tighten_allowance(random, &mut drawn.question),
            Twist::Between => stop_between(random, &mut drawn),
            Twist::Room => tighten_room(random, &mut drawn),
        }
    }
    limit_walk(random, &mut drawn.question);
    drawn.question
}

/// Where the question has arguments for which this holds.
fn places(question: &Question, wanted: impl Fn(Sort) -> bool) -> Vec<usize> {
    let (_, sorts) = sorts(question.name.as_bytes()).expect("a call's name");
    (0..sorts.len()).filter(|&i| wanted(sorts[i])).collect()
}

fn place_of(question: &Question, sort: Sort) -> Option<usize> {
    places(question, |other| other == sort).first().copied()
}

fn sort_at(question: &Question, place: usize) -> Sort {
    sorts(question.name.as_bytes()).expect("a call's name").1[place]
}

/// A part of the answer to a question: 0 is its number, 3 the count, 4 the bytes written, 5 the
/// index.
fn part(question: &Question, part: usize) -> u64 {
    let answer = ask(question);
    let word = answer.split(' ').nth(part).expect("six parts");
    word.parse().expect("a number")
}

fn damage_one(random: &mut Random, drawn: &mut Drawn) {
    let lent = places(&drawn.question, |sort| sort.most().is_none());
    if lent.is_empty() {
        return;
    }
    let place = random.pick(&lent);
    let sort = sort_at(&drawn.question, place);
    if let Argument::Bytes(bytes) = &mut drawn.question.arguments[place] {
        damage::damage(random, sort, drawn.w, bytes);
    }
}

fn change_w(random: &mut Random, drawn: &mut Drawn) {
    let w = drawn.w as u64;
    let near = random.pick(&[w + 1, w - 1]);
    if let Some(place) = place_of(&drawn.question, Sort::W) {
        let far = [0, 0, 320, 321, 321, 65_540, 65_536 + w, (1 << 32) + w, u64::MAX];
        let far = random.pick(&far);
        let w = random.pick(&[near, far]);
        drawn.question.arguments[place] = Argument::Number(w);
        return;
    }
    let files = places(&drawn.question, |sort| sort == Sort::File);
    if files.is_empty() {
        return;
    }
    let place = random.pick(&files);
    let mut file = drawn.question.arguments[place].bytes().to_vec();
    if random.one_in(3) || file.len() < 6 {
        file = other_file(random);
    } else {
        let w = random.pick(&[near as u16, near as u16, 0, 321, 322, 512, 65_535]);
        file[4..6].copy_from_slice(&w.to_le_bytes());
    }
    drawn.question.arguments[place] = Argument::Bytes(file);
}

/// A file that is valid for its own W.
fn other_file(random: &mut Random) -> Vec<u8> {
    let drawn = draw::question(random, "region_tidy", Theme::Plain);
    drawn.question.arguments[0].bytes().to_vec()
}

fn change_number(random: &mut Random, drawn: &mut Drawn) {
    let numbers = places(&drawn.question, |sort| sort == Sort::Other);
    if numbers.is_empty() {
        return;
    }
    let place = random.pick(&numbers);
    let number = drawn.question.arguments[place].number();
    let w = drawn.w as u64;
    let near = [
        number.saturating_add(1),
        number.saturating_sub(1),
        number.saturating_add(2),
        w,
        w + 1,
        0,
        random.between(1, 6) as u64,
    ];
    let far = [u64::MAX, u64::MAX - 1, 1 << 32, 65_536, 1 << 63, 100];
    let number = if random.one_in(3) { random.pick(&far) } else { random.pick(&near) };
    drawn.question.arguments[place] = Argument::Number(number);
    if random.one_in(3) {
        relength_value(random, drawn);
    }
}

/// Gives a prefix the value's length for its n, so that not all changed numbers end in 11.
fn relength_value(random: &mut Random, drawn: &mut Drawn) {
    if let Some(place) = place_of(&drawn.question, Sort::Value) {
        let n = drawn.question.arguments[2].number().min(400) as usize;
        let any = shapes::cube(random, n);
        let value = shapes::header(random, &any).bytes();
        drawn.question.arguments[place] = Argument::Bytes(value);
    }
}

/// Just below, at or just above what the walk costs.
fn tighten_allowance(random: &mut Random, question: &mut Question) {
    if let Some(place) = place_of(question, Sort::Allowance) {
        question.arguments[place] = Argument::Number(LONGEST_WALK);
        let count = part(question, 3);
        let below = count.saturating_sub(1);
        let allowance = random.pick(&[below, below, count, count, count + 1, 0]);
        question.arguments[place] = Argument::Number(allowance);
    }
}

/// What the differences or pieces before one of them cost, often before the one that decides: the
/// walk stops between two.
fn stop_between(random: &mut Random, drawn: &mut Drawn) {
    let Some(place) = place_of(&drawn.question, Sort::Allowance) else {
        return;
    };
    let mut front = drawn.question.clone();
    front.arguments[place] = Argument::Number(LONGEST_WALK);
    let decides = part(&front, 5) as usize;
    if let Some(shorter) = shortened(random, drawn, decides) {
        front.arguments[place - 1] = Argument::Bytes(shorter);
        drawn.question.arguments[place] = Argument::Number(part(&front, 3));
    }
}

/// The file, or the second record of an inclusion, without the differences or cuts from one on that
/// comes no later than the one that decides.
fn shortened(random: &mut Random, drawn: &Drawn, decides: usize) -> Option<Vec<u8>> {
    let mut up_to = |last: usize| match random.below(2) {
        0 => last,
        _ => random.below(last + 1),
    };
    match drawn.question.name {
        "region_empty" => {
            let mut region = Region::read(1, drawn.question.arguments[0].bytes()).ok()?;
            let count = region.differences.len();
            region.differences.truncate(up_to(decides.min(count)));
            Some(region.file())
        }
        "diff_in" => {
            let lent = drawn.question.arguments[2].bytes();
            let mut second = record::read_single(drawn.w, lent).ok()?;
            // Piece 0 is of no cut, so the piece that decides is of the cut before.
            let last = decides.saturating_sub(1).min(second.cuts.len());
            second.cuts.truncate(up_to(last));
            Some(record::kind_2(&second))
        }
        _ => None,
    }
}

/// One too small, exact, larger or 0.
fn tighten_room(random: &mut Random, drawn: &mut Drawn) {
    let Some(place) = place_of(&drawn.question, Sort::Room) else {
        return;
    };
    limit_walk(random, &mut drawn.question);
    drawn.question.arguments[place] = Argument::Number(MOST_ROOM);
    let needed = match place_of(&drawn.question, Sort::Allowance) {
        Some(_) => Header::length(drawn.w) as u64,
        None => part(&drawn.question, 4),
    };
    let below = needed.saturating_sub(1);
    let room = random.pick(&[below, below, below, needed, needed, needed + 1, 0]);
    drawn.question.arguments[place] = Argument::Number(room);
}

/// Lowers an allowance that would let the walk become too long.
fn limit_walk(random: &mut Random, question: &mut Question) {
    let Some(place) = place_of(question, Sort::Allowance) else {
        return;
    };
    let allowance = question.arguments[place].clone();
    if allowance.number() <= LONGEST_WALK {
        return;
    }
    question.arguments[place] = Argument::Number(LONGEST_WALK);
    if part(question, 0) == 3 {
        let less = random.between(1_000, 20_000) as u64;
        question.arguments[place] = Argument::Number(less);
    } else {
        question.arguments[place] = allowance;
    }
}
