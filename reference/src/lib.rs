//! A second implementation of docs/FORMAT.md (permit regions), written from the paper alone and not from the first.
//!
//! Cubes are kept as strings of 0, 1 and x and every rule is followed the way the document says
//! it, so that each function can be held against its sentence. Numbers such as 13 or 22 are those
//! of the document's table.

pub mod agree;
pub mod algebra;
pub mod answer;
pub mod calls;
pub mod cases;
pub mod coverage;
pub mod cube;
pub mod desk;
pub mod difference;
pub mod fields;
pub mod generator;
pub mod header;
pub mod hex;
pub mod notation;
pub mod program;
pub mod reader;
pub mod record;
pub mod region;
pub mod requests;
pub mod tidy;
pub mod views;
pub mod walk;
