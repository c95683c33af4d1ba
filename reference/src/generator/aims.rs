//! Every number, with its operand, that each call can give.

use crate::answer::Number;
use crate::desk::{Sort, CALLS};

/// An answer to reach: a call, the number it gives and the operand at fault.
#[derive(Clone, Copy, Debug, PartialEq, Eq)]
pub struct Aim {
    pub name: &'static str,
    pub number: Number,
    pub operand: u8,
}

pub fn all() -> Vec<Aim> {
    CALLS.into_iter().flat_map(|(name, sorts)| of_call(name, sorts)).collect()
}

fn of_call(name: &'static str, sorts: &[Sort]) -> Vec<Aim> {
    let mut aims = Vec::new();
    let mut add = |numbers: &[Number], operand| {
        aims.extend(numbers.iter().map(|&number| Aim { name, number, operand }));
    };
    add(answers(name), 0);
    add(own_refusals(name), 0);
    let mut operand = 0;
    for sort in sorts {
        match sort {
            Sort::W => add(&[10], 0),
            Sort::Header | Sort::Value => add(&[11], 0),
            Sort::Room => add(&[22], 0),
            Sort::Other | Sort::Allowance => {}
            Sort::Cube | Sort::Record | Sort::File => {
                operand += 1;
                add(faults(name, *sort), operand);
            }
        }
    }
    aims
}

/// The numbers of a call that are no refusal.
fn answers(name: &str) -> &'static [Number] {
    match name {
        "cube_meet" => &[0, 2],
        "cube_in" | "wider" | "diff_member" | "region_member" | "read_on" => &[1, 2],
        "diff_empty" | "region_empty" | "diff_in" => &[1, 2, 3],
        "view" => &[1],
        _ => &[0],
    }
}

/// The refusals of a call that no operand is at fault for, but 10, 11 and 22.
fn own_refusals(name: &str) -> &'static [Number] {
    match name {
        "diff_intersect" | "diff_less" => &[18],
        "region_intersect" => &[18, 19, 20],
        "region_less" => &[18, 19],
        "prefix" => &[21],
        "equal_fields" => &[18, 21],
        "view" => &[23],
        _ => &[],
    }
}

/// The faults of an operand.
fn faults(name: &str, sort: Sort) -> &'static [Number] {
    match sort {
        Sort::Cube => &[12, 13, 14],
        Sort::Record => &[13, 14, 15, 16, 17, 18],
        // Reading on counts no records.
        _ if name == "read_on" => &[10, 13, 14, 15, 16, 17, 18],
        _ => &[10, 13, 14, 15, 16, 17, 18, 19],
    }
}
