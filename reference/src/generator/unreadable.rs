//! Lines that are no question.

use super::random::Random;
use crate::desk::{sorts, Sort, LONGEST_LINE};

/// The ways to make a line unreadable, as one list: the enum and all its values in order.
macro_rules! flaws {
    ($($name:ident),* $(,)?) => {
        /// A way to make a line unreadable.
        #[derive(Clone, Copy, Debug, PartialEq, Eq)]
        pub enum Flaw {
            $($name),*
        }

        pub const FLAWS: &[Flaw] = &[$(Flaw::$name),*];
    };
}

flaws! {
    Name,
    NoName,
    ArgumentDropped,
    ArgumentAdded,
    Sign,
    NoDigit,
    DashForNumber,
    Empty,
    RoomTooLarge,
    AllowanceTooLarge,
    NumberTooLarge,
    ManyDigits,
    OddHex,
    NoHexDigit,
    DashInHex,
    SpaceBefore,
    SpaceAfter,
    TwoSpaces,
    Tab,
    CarriageReturn,
    NotAscii,
    Joined,
    Nothing,
}

/// The readable line with this flaw; the same line if it has no place for the flaw.
pub fn flawed(random: &mut Random, flaw: Flaw, line: &str) -> String {
    let mut words: Vec<String> = line.split(' ').map(String::from).collect();
    let last = words.len() - 1;
    match flaw {
        Flaw::NoName => drop(words.remove(0)),
        Flaw::ArgumentDropped => drop(words.remove(random.between(1, last))),
        Flaw::ArgumentAdded => words.push(random.pick(&["0", "-", "FF"]).to_string()),
        Flaw::SpaceBefore => words.insert(0, String::new()),
        Flaw::SpaceAfter => words.push(String::new()),
        Flaw::TwoSpaces => words.insert(random.between(1, last), String::new()),
        Flaw::Joined => return line.replacen(' ', "", 1),
        Flaw::Tab => return line.replacen(' ', "\t", 1),
        Flaw::CarriageReturn => return format!("{line}\r"),
        Flaw::Nothing => return String::new(),
        _ => flaw_word(random, flaw, &mut words),
    }
    words.join(" ")
}

/// A flaw within one word that has a place for it.
fn flaw_word(random: &mut Random, flaw: Flaw, words: &mut [String]) {
    let (_, sorts) = sorts(words[0].as_bytes()).expect("a readable line");
    let fits = |sort: Sort| match flaw {
        Flaw::RoomTooLarge => sort == Sort::Room,
        Flaw::AllowanceTooLarge => sort == Sort::Allowance,
        Flaw::NumberTooLarge => sort == Sort::W || sort == Sort::Other,
        Flaw::Sign | Flaw::NoDigit | Flaw::DashForNumber | Flaw::ManyDigits => {
            sort.most().is_some()
        }
        Flaw::OddHex | Flaw::NoHexDigit | Flaw::DashInHex => sort.most().is_none(),
        _ => true,
    };
    let mut places: Vec<usize> = (1..words.len()).filter(|&i| fits(sorts[i - 1])).collect();
    if flaw == Flaw::Name {
        places = vec![0];
    }
    if !places.is_empty() {
        let place = random.pick(&places);
        words[place] = flawed_word(random, flaw, &words[place]);
    }
}

fn flawed_word(random: &mut Random, flaw: Flaw, word: &str) -> String {
    let cut = random.below(word.len() + 1);
    let (before, after) = word.split_at(cut);
    match flaw {
        Flaw::Name => flawed_name(random, word),
        Flaw::Sign => format!("{}{word}", random.pick(&["+", "-"])),
        Flaw::NoDigit => format!("{before}{}{after}", random.pick(&["x", ".", ",", "_", "A"])),
        Flaw::DashForNumber => "-".to_string(),
        Flaw::RoomTooLarge => random.pick(&["1048577", "4294967296"]).to_string(),
        Flaw::AllowanceTooLarge => "4294967296".to_string(),
        Flaw::NumberTooLarge => "18446744073709551616".to_string(),
        Flaw::ManyDigits => format!("{word}00000000000000000000000000"),
        Flaw::OddHex => format!("{before}7{after}"),
        Flaw::NoHexDigit => format!("{before}{}{after}", random.pick(&["G", "0x", "zz", "%1"])),
        Flaw::DashInHex => format!("{before}--{after}"),
        Flaw::NotAscii => format!("{before}\u{e9}{after}"),
        // Empty; no other flaw is one of a word.
        _ => String::new(),
    }
}

fn flawed_name(random: &mut Random, name: &str) -> String {
    match random.below(4) {
        0 => name.to_uppercase(),
        1 => name[1..].to_string(),
        2 => format!("{name}s"),
        _ => name.replace('_', "-") + "_",
    }
}

/// A line of exactly the greatest length, or of one character more, that is readable but for its
/// length: long by zeros before W, or by bytes after a record.
pub fn long_line(too_long: bool, by_zeros: bool) -> String {
    let length = LONGEST_LINE + usize::from(too_long);
    if by_zeros {
        let (name, rest) = ("cube_in ", "4 9F FF");
        let zeros = "0".repeat(length - name.len() - rest.len());
        return format!("{name}{zeros}{rest}");
    }
    let start = if too_long { "ceiling 04 " } else { "ceiling 4 " };
    let record = "0500020001FF9F";
    let zeros = "0".repeat(length - start.len() - record.len());
    format!("{start}{record}{zeros}")
}
