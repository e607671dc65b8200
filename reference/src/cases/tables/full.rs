//! Tables of 8 states and 32 actions, and of 16, and tables with as many rows as there may be.

use crate::cases::files::{case, with_most_states, Case};
use crate::cases::tables::FaultyTable;
use crate::model::lines::text_of;
use crate::model::refusals::{PAIR_MET_TWICE, PAIR_NOT_MET};
use crate::model::write::end;

pub fn all() -> Vec<Case> {
    let mut cases = Vec::new();
    cases.extend(full_tables());
    cases.extend(rows_past_full_tables());
    cases
}

/// A program of 16 routines with 8 states and 32 actions, so many steps, these rows, then all states
/// as starts and forbidden ones.
fn large(steps: usize, rows: &[Vec<u8>]) -> Vec<u8> {
    let mut frames = vec![vec![0x50, 16, 8, 32]];
    frames.extend((0..16).map(|routine| vec![0x52, routine, 16]));
    let every_step = (0..32).flat_map(|label| (0..16).map(move |to| vec![0x53, 0, 0, label, to]));
    frames.extend(every_step.take(steps));
    frames.extend_from_slice(rows);
    frames.extend((0..8).map(|state| vec![0x49, state]));
    frames.extend((0..8).map(|state| vec![0x46, state]));
    frames.push(end(frames.len()));
    text_of(&frames)
}

/// The row of one pair.
fn pair_row(state: u8, action: u8, to: u8) -> Vec<u8> {
    let action_bits = (1_u32 << action).to_be_bytes();
    [&[0x55, 1 << state], &action_bits[..], &[to]].concat()
}

/// A row for each pair of 8 states and 32 actions.
fn every_pair() -> Vec<Vec<u8>> {
    let next = |state: u8, action: u8| (state + action) % 8;
    let row = |state, action| pair_row(state, action, next(state, action));
    (0..8)
        .flat_map(|state| (0..32).map(move |action| row(state, action)))
        .collect()
}

/// So many rows: those without a bit in front, and at the end the one that meets every pair.
fn padded(count: usize) -> Vec<Vec<u8>> {
    let bare = (0..count - 1).map(|number| {
        let [high, low] = (number as u16).to_be_bytes();
        vec![0x55, 0, 0, 0, high, low, 7]
    });
    bare.chain([vec![0x55, 0xFF, 0xFF, 0xFF, 0xFF, 0xFF, 3]])
        .collect()
}

/// The row of two neighbouring actions in one of 16 states, the lower action even.
fn row_of_two(state: u8, action: u8, to: u8) -> Vec<u8> {
    let (state_bits, action_bits) = (1_u16 << state, 0b11_u32 << action);
    [
        &[0x55],
        &state_bits.to_be_bytes()[..],
        &action_bits.to_be_bytes(),
        &[to],
    ]
    .concat()
}

/// Rows that meet every pair of 16 states and 32 actions, as many as there may be.
fn every_two_pairs() -> Vec<Vec<u8>> {
    let row = |state, half: u8| row_of_two(state, 2 * half, (state + half) % 16);
    (0..16)
        .flat_map(|state| (0..16).map(move |half| row(state, half)))
        .collect()
}

/// The largest file with rows there is: 256 steps and 256 rows of seven numbers, and all else in full.
pub fn largest() -> Vec<u8> {
    with_most_states(&every_two_pairs())
}

/// The largest file with rows, in lines.
pub fn largest_in_lines() -> Vec<u8> {
    let line = |state: u8, action: u8| vec![0x54, state, action, (state + action / 2) % 16];
    let rule = (0..16).flat_map(|state| (0..32).map(move |action| line(state, action)));
    with_most_states(&rule.collect::<Vec<_>>())
}

/// A row for each pair of 8 states and 32 actions, and one more for the first.
fn first_twice() -> Vec<Vec<u8>> {
    let mut rows = every_pair();
    rows.insert(1, pair_row(0, 0, 7));
    rows
}

pub fn faulty() -> Vec<FaultyTable> {
    let (every_pair, every_two_pairs) = (every_pair(), every_two_pairs());
    vec![
        FaultyTable {
            name: "Q 16, 255 rows, not met",
            file: with_most_states(&every_two_pairs[..255]),
            refusal: PAIR_NOT_MET,
            pair: (15, 30),
        },
        FaultyTable {
            name: "255 rows, a pair not met",
            file: large(0, &every_pair[..255]),
            refusal: PAIR_NOT_MET,
            pair: (7, 31),
        },
        FaultyTable {
            name: "256 rows, a pair not met, one twice",
            file: large(0, &first_twice()[..256]),
            refusal: PAIR_MET_TWICE,
            pair: (0, 0),
        },
    ]
}

fn full_tables() -> Vec<Case> {
    let all = vec![vec![0x55, 0xFF, 0xFF, 0xFF, 0xFF, 0xFF, 7]];
    let mut one_more = every_two_pairs();
    one_more.push(row_of_two(15, 30, 15));
    let alone = [vec![0x55, 0xFF, 0xFF, 0xFF, 0xFF, 0xFF, 0xFF, 15]];
    vec![
        case("the largest file with rows", largest(), 0, 0),
        case("Q 16 and A 32, one row", with_most_states(&alone), 0, 0),
        case("Q 16, 257 rows", with_most_states(&one_more), 6, 530),
        case("Q 8 and A 32, one row", large(0, &all), 0, 0),
        case("Q 8 and A 32, 256 rows", large(0, &every_pair()), 0, 0),
        case("255 rows", large(0, &padded(255)), 0, 0),
        case("256 rows", large(0, &padded(256)), 0, 0),
        case("257 rows", large(0, &padded(257)), 6, 274),
        case("257 rows after 256 steps", large(256, &padded(257)), 6, 530),
        case("300 rows", large(0, &padded(300)), 6, 274),
        case("257 rows, a pair twice", large(0, &first_twice()), 6, 274),
    ]
}

/// What the 257th row may also have wrong.
fn rows_past_full_tables() -> Vec<Case> {
    let last = |row: &[u8]| large(0, &[every_pair(), vec![row.to_vec()]].concat());
    vec![
        case(
            "257th row fits",
            last(&[0x55, 0x80, 0x80, 0, 0, 1, 0]),
            6,
            274,
        ),
        case(
            "257th row, next state 8",
            last(&[0x55, 0x80, 0x80, 0, 0, 1, 8]),
            5,
            274,
        ),
        case("257th row repeats", last(&pair_row(7, 31, 6)), 4, 274),
        case("257th row below", last(&pair_row(0, 0, 0)), 4, 274),
        case("257th row too short", last(&[0x55, 0x80]), 3, 274),
        case(
            "a rule line after 256 rows",
            last(&[0x54, 7, 31, 7]),
            4,
            274,
        ),
    ]
}

#[cfg(test)]
mod tests {
    use super::*;
    use crate::model::write::OUTPUT_SIZE;

    #[test]
    fn the_largest_file_with_rows_is_written_as_long_as_any() {
        assert_eq!(largest().len(), 7456);
        assert_eq!(largest_in_lines().len(), OUTPUT_SIZE);
    }
}
