//! Questions with arguments that are as docs/FORMAT.md wants them.

use super::crowds;
use super::random::Random;
use super::shapes;
use crate::cube::Cube;
use crate::desk::{sorts, Argument, Question, Sort, MOST_ALLOWANCE, MOST_ROOM};
use crate::difference::Difference;
use crate::header::Header;
use crate::record;
use crate::region::Region;

/// What the operands of a question are like.
#[derive(Clone, Copy, Debug, PartialEq, Eq)]
pub enum Theme {
    /// Small shapes that touch each other.
    Plain,
    /// Shapes whose cuts cover their base.
    Covered,
    /// Covered shapes with a long walk.
    Deep,
    /// Plain shapes of a great W.
    Wide,
    /// About 64 cuts, read or resulting.
    Cuts,
    /// About 256 differences, read or resulting.
    Differences,
    /// Above 256 differences, the last with about 64 cuts.
    LastCuts,
    /// Regions whose first differences are empty, and cuts that miss before one gives back.
    Late,
    /// As late as about 256 differences, or 64 cuts, allow.
    Latest,
}

/// A question and the W that its arguments were drawn for.
pub struct Drawn {
    pub question: Question,
    pub w: usize,
}

/// What may be lent; a call takes of it what its table asks for.
struct Operands {
    cubes: [Cube; 2],
    differences: [Difference; 2],
    regions: [Region; 2],
}

pub fn question(random: &mut Random, name: &str, theme: Theme) -> Drawn {
    let (name, sorts) = sorts(name.as_bytes()).expect("a call's name");
    let w = fitting_w(random, name, theme);
    let operands = operands(random, name, theme, w);
    let (others, value) = others(random, name, theme, &operands.regions[0]);
    let mut others = others.into_iter();
    let mut operand = 0..2;
    let mut argument = |sort: &Sort| match sort {
        Sort::W => Argument::Number(w as u64),
        Sort::Cube | Sort::Record | Sort::File => {
            Argument::Bytes(operands.lent(*sort, operand.next().expect("two operands at most")))
        }
        Sort::Header => Argument::Bytes(header(random, name, &operands).bytes()),
        Sort::Value => Argument::Bytes(value.bytes()),
        Sort::Other => Argument::Number(others.next().expect("a number for each") as u64),
        Sort::Allowance => Argument::Number(allowance(random, theme)),
        Sort::Room => Argument::Number(room(random)),
    };
    let arguments = sorts.iter().map(&mut argument).collect();
    let question = Question { name, arguments };
    Drawn { question, w }
}

impl Operands {
    fn lent(&self, sort: Sort, operand: usize) -> Vec<u8> {
        match sort {
            Sort::Cube => self.cubes[operand].bytes(),
            Sort::Record => record::kind_2(&self.differences[operand]),
            _ => self.regions[operand].file(),
        }
    }
}

fn fitting_w(random: &mut Random, name: &str, theme: Theme) -> usize {
    match theme {
        Theme::Plain | Theme::Covered | Theme::Late => shapes::any_w(random),
        Theme::Deep => random.pick(&[12, 16, 24, 31, 32, 33, 99]),
        Theme::Wide => random.pick(&[317, 318, 319, 320, 320]),
        Theme::Cuts if name == "equal_fields" => random.pick(&[40, 64, 66, 99]),
        Theme::Cuts if random.one_in(24) => 320,
        Theme::Cuts if name == "ceiling" => random.pick(&[8, 12, 31, 64, 70]),
        Theme::Cuts => crowds::LEAST_W + random.below(5),
        Theme::Differences | Theme::Latest => random.between(2, 4),
        Theme::LastCuts => crowds::LEAST_W,
    }
}

fn operands(random: &mut Random, name: &str, theme: Theme, w: usize) -> Operands {
    let first = shapes::cube(random, w);
    let second = shapes::beside(random, &first);
    let counts = crowds::counts(random, name);
    let differences = match theme {
        Theme::Cuts | Theme::LastCuts => crowds::pair(random, name, w),
        Theme::Differences => [shapes::difference(random, w), crowds::taken(random, w, counts.1)],
        Theme::Late | Theme::Latest => {
            let missing =
                if theme == Theme::Late { random.below(4) } else { random.between(50, 60) };
            shapes::giving_back(random, w, missing)
        }
        _ => pair(random, theme, w),
    };
    let regions = [0, 1].map(|operand| Region {
        w,
        differences: match theme {
            Theme::Differences => crowds::many(random, w, [counts.0, counts.1][operand]),
            Theme::LastCuts => crowds::many_and(random, name, &differences[operand]),
            Theme::Latest => crowds::many_late(random, w),
            _ => region(random, theme, &differences[operand]),
        },
    });
    Operands { cubes: [first, second], differences, regions }
}

fn one(random: &mut Random, theme: Theme, w: usize) -> Difference {
    match theme {
        Theme::Covered => shapes::covered(random, w),
        Theme::Deep => shapes::deep(random, w),
        Theme::Late => shapes::empty(random, w),
        _ => shapes::difference(random, w),
    }
}

fn pair(random: &mut Random, theme: Theme, w: usize) -> [Difference; 2] {
    let first = one(random, theme, w);
    let second = shapes::other(random, &first);
    [first, second]
}

/// A few differences, this one last, or sometimes none. One that decides late may come twice.
fn region(random: &mut Random, theme: Theme, last: &Difference) -> Vec<Difference> {
    if random.one_in(8) {
        return Vec::new();
    }
    let w = last.base.w();
    let before = match theme {
        _ if w > 40 => 1,
        Theme::Late => random.between(1, 5),
        _ => random.pick(&[0, 0, 1, 1, 2, 3]),
    };
    let mut region: Vec<Difference> = (0..before).map(|_| one(random, theme, w)).collect();
    region.push(last.clone());
    if theme == Theme::Late && random.one_in(2) {
        region.push(last.clone());
    }
    region
}

/// A header, often in the first operand.
fn header(random: &mut Random, name: &str, operands: &Operands) -> Header {
    let in_region = operands.regions[0].differences.last();
    let near = match in_region {
        Some(difference) if name == "region_member" => difference,
        _ => &operands.differences[0],
    };
    shapes::header(random, &near.base)
}

/// The other numbers of a call, in their order, and the value of a prefix.
fn others(random: &mut Random, name: &str, theme: Theme, region: &Region) -> (Vec<usize>, Header) {
    let w = region.w;
    let none = Header(Vec::new());
    match name {
        "prefix" => prefix(random, w),
        "equal_fields" => (equal_fields(random, theme, w), none),
        "view" => (index(random, region), none),
        "read_on" => (vec![place(random, region)], none),
        _ => (Vec::new(), none),
    }
}

fn prefix(random: &mut Random, w: usize) -> (Vec<usize>, Header) {
    let n = random.between(1, w);
    let s = random.below(w - n + 1);
    // In a long field the length 0 would come too seldom.
    let m = if random.one_in(3) { 0 } else { random.between(1, n) };
    let mut value = shapes::header(random, &Cube::all_free(n));
    value.0[m..].fill(b'0');
    (vec![s, n, m], value)
}

fn equal_fields(random: &mut Random, theme: Theme, w: usize) -> Vec<usize> {
    let n = match theme {
        Theme::Cuts => random.between(31, 34),
        _ => random.between(1, w),
    };
    let s1 = random.below(w - n + 1);
    let s2 = random.below(w - n + 1);
    vec![s1, if random.one_in(4) { s1 } else { s2 }, n]
}

fn index(random: &mut Random, region: &Region) -> Vec<usize> {
    match region.differences.len() {
        0 => vec![0, 0],
        count => {
            let d = random.below(count);
            vec![d, random.below(region.differences[d].cuts.len() + 1)]
        }
    }
}

/// A place where a step can start: 0, a record's start or the end.
fn place(random: &mut Random, region: &Region) -> usize {
    match random.below(region.differences.len() + 2) {
        0 => 0,
        next => region.offset(next - 1),
    }
}

fn allowance(random: &mut Random, theme: Theme) -> u64 {
    if theme == Theme::Deep {
        return random.pick(&[1_000, 20_000, 100_000, MOST_ALLOWANCE]);
    }
    if theme == Theme::Latest {
        return random.pick(&[10_000, MOST_ALLOWANCE]);
    }
    random.pick(&[0, 1, 2, 3, 5, 9, 50, 1_000, 100_000, MOST_ALLOWANCE])
}

/// Mostly enough. The greatest room is rare, since lending it costs time.
fn room(random: &mut Random) -> u64 {
    if random.one_in(40) {
        return MOST_ROOM;
    }
    random.pick(&[40, 99, 999, 9_999, 30_000])
}
