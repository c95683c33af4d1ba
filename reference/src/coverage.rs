//! How many lines there are by call and number.

use std::collections::BTreeMap;

use crate::answer::Number;
use crate::desk::{CALLS, UNREADABLE};
use crate::generator::aims::{self, Aim};

/// The numbers that a call of the desk can give; 25 is the question program's.
const NUMBERS: [Number; 18] = [0, 1, 2, 3, 10, 11, 12, 13, 14, 15, 16, 17, 18, 19, 20, 21, 22, 23];

#[derive(Default)]
pub struct Coverage {
    /// Lines by call, number and operand.
    lines: BTreeMap<(String, Number, u8), usize>,
    unreadable: usize,
}

impl Coverage {
    pub fn count(&mut self, question: &str, answer: &str) {
        if answer == UNREADABLE {
            self.unreadable += 1;
            return;
        }
        let name = question.split(' ').next().unwrap_or_default();
        let mut parts = answer.split(' ').map(|part| part.parse().unwrap_or(Number::MAX));
        let mut part = || parts.next().unwrap_or(Number::MAX);
        let key = (name.to_string(), part(), part());
        *self.lines.entry(key).or_default() += 1;
    }

    fn lines(&self, name: &str, number: Number) -> usize {
        let all = self.lines.iter();
        let these = all.filter(|((call, given, _), _)| call == name && *given == number);
        these.map(|(_, lines)| lines).sum()
    }

    /// The aims that no line reaches.
    pub fn missing(&self) -> Vec<Aim> {
        let mut aims = aims::all();
        aims.retain(|aim| {
            let key = (aim.name.to_string(), aim.number, aim.operand);
            !self.lines.contains_key(&key)
        });
        aims
    }

    /// The table by call and number, then what is missing.
    pub fn table(&self) -> String {
        let header: String = NUMBERS.iter().map(|n| format!("{n:>5}")).collect();
        let mut table = format!("{:<16}{header}\n", "call");
        for (name, _) in CALLS {
            let cell = |&number: &Number| match self.lines(name, number) {
                0 => format!("{:>5}", "."),
                lines => format!("{lines:>5}"),
            };
            let row: String = NUMBERS.iter().map(cell).collect();
            table += &format!("{name:<16}{row}\n");
        }
        table += &format!("unreadable {}\n", self.unreadable);
        for aim in self.missing() {
            let Aim { name, number, operand } = aim;
            table += &format!("missing: {name} {number} with operand {operand}\n");
        }
        table
    }
}
