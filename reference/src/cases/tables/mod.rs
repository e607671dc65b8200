//! Files with rows that are known by name, each with the answer worked out by hand.
//!
//! A row is written 55, state bits, action bits in four numbers, next state. Most of these files have
//! one routine and no step, so that their rows begin at line 3.
//!
//! - `pairs` has tables, whole ones and faulty ones with the first faulty pair, and `rows` has what is judged of a row by itself
//!   and beside other lines; `full` has tables that are full.
//! - `written` has what tables are written as.
//! - `completed` is the sample with a rule that can be put down in rows, and repairs of it.

pub mod completed;
pub mod full;
pub mod pairs;
pub mod rows;
pub mod written;

use crate::cases::files::{case, Case};
use crate::model::lines::line_of;
use crate::model::table::Pair;
use crate::model::write::end;

/// Every named file.
pub fn files() -> Vec<Case> {
    let faulty = faulty().into_iter();
    let faulty = faulty.map(|table| case(table.name, table.file, table.refusal, 0));
    [pairs::all(), rows::all(), full::all()]
        .into_iter()
        .flatten()
        .chain(faulty)
        .collect()
}

/// A file whose table has faulty pairs: the first of them, and its refusal.
pub struct FaultyTable {
    pub name: &'static str,
    pub file: Vec<u8>,
    pub refusal: u32,
    pub pair: Pair,
}

/// Every file that is refused for its table, with the pair worked out by hand.
pub fn faulty() -> Vec<FaultyTable> {
    [pairs::faulty(), full::faulty()]
        .into_iter()
        .flatten()
        .collect()
}

/// A file of these lines, set apart by spaces, and its end.
pub fn file(lines: &str) -> Vec<u8> {
    let mut file: Vec<String> = lines.split(' ').map(|line| format!("{line}\n")).collect();
    let end = line_of(&end(file.len()));
    file.push(String::from_utf8(end).expect("digits"));
    file.concat().into_bytes()
}

/// One routine, two states, two actions, and these rows.
pub fn two_by_two(rows: &str) -> Vec<u8> {
    file(&format!("50010202 520002 {rows}"))
}

/// One row that meets every pair of two states and two actions.
pub const ONE_ROW: &str = "55030000000301";
/// A row for each of these pairs.
pub const FOUR_ROWS: &str = "55010000000100 55010000000201 55020000000101 55020000000200";
