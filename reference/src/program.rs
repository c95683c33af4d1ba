//! The question program: a region file in, one line out.

use crate::answer::Outcome;
use crate::calls;
use crate::header::{Header, GREATEST_W};
use crate::hex;

/// The most bytes that the program takes.
pub const MOST_INPUT: usize = 65_536;

const ALLOWANCE: u32 = 1_000_000;

/// The program's line for its whole input.
pub fn question(input: &[u8]) -> String {
    if input.len() > MOST_INPUT {
        return "refused 25 0\n".to_string();
    }
    let outcome = calls::region_empty(input, ALLOWANCE, Header::length(GREATEST_W));
    format!("{}\n", line(&outcome))
}

fn line(outcome: &Outcome) -> String {
    match outcome {
        Err(refusal) => format!("refused {} {}", refusal.number, refusal.offset),
        Ok(answer) => match answer.number {
            1 => format!("empty {}", answer.count),
            2 => format!("member {} {}", answer.count, hex::capital(&answer.bytes)),
            _ => format!("undecided {}", answer.count),
        },
    }
}
