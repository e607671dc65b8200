//! Tables: complete ones, and those with a pair that no row meets or that two rows meet.

use crate::cases::files::{case, Case};
use crate::cases::tables::completed;
use crate::cases::tables::{file, two_by_two, FaultyTable, FOUR_ROWS, ONE_ROW};
use crate::model::refusals::{PAIR_MET_TWICE, PAIR_NOT_MET};
use crate::model::table::Pair;

pub fn all() -> Vec<Case> {
    let mut cases = Vec::new();
    cases.extend(complete());
    cases.extend(rows_without_a_bit());
    cases
}

pub fn faulty() -> Vec<FaultyTable> {
    let mut tables = Vec::new();
    tables.extend(pairs_not_met());
    tables.extend(pairs_met_twice());
    tables.extend(first_faulty_pairs());
    tables.extend(first_by_state());
    tables
}

fn complete() -> Vec<Case> {
    let one_pair = file("50010101 520002 55010000000100");
    let three_by_three = |rows: &str| file(&format!("50010303 520002 {rows}"));
    let pinwheel = "55010000000301 55020000000200 55030000000402 55040000000600 55060000000101";
    let crossed = "55010000000702 55020000000500 55060000000201 55040000000501";
    let crossed_ascending = "55010000000702 55020000000500 55040000000501 55060000000201";
    vec![
        case("one pair, one row", one_pair, 0, 0),
        case("one row", two_by_two(ONE_ROW), 0, 0),
        case("a row for each pair", two_by_two(FOUR_ROWS), 0, 0),
        case(
            "a row for each state",
            two_by_two("55010000000301 55020000000300"),
            0,
            0,
        ),
        case(
            "a row for each action",
            two_by_two("55030000000101 55030000000200"),
            0,
            0,
        ),
        case(
            "rows of different widths",
            two_by_two("55010000000301 55020000000100 55020000000201"),
            0,
            0,
        ),
        case("no cut parts the table", three_by_three(pinwheel), 0, 0),
        case(
            "states that are no neighbours",
            three_by_three("55020000000701 55050000000702"),
            0,
            0,
        ),
        case(
            "actions that are no neighbours",
            three_by_three(crossed_ascending),
            0,
            0,
        ),
        case("the same out of order", three_by_three(crossed), 4, 6),
        case("the completed sample in rows", completed::in_rows(), 0, 0),
        case("the completed sample in lines", completed::in_lines(), 0, 0),
    ]
}

/// A table whose first faulty pair no row meets, and one where it is met twice.
fn not_met(name: &'static str, file: Vec<u8>, pair: Pair) -> FaultyTable {
    FaultyTable {
        name,
        file,
        refusal: PAIR_NOT_MET,
        pair,
    }
}

fn met_twice(name: &'static str, file: Vec<u8>, pair: Pair) -> FaultyTable {
    FaultyTable {
        refusal: PAIR_MET_TWICE,
        ..not_met(name, file, pair)
    }
}

fn pairs_not_met() -> Vec<FaultyTable> {
    let none = |name, rows: &str, pair| not_met(name, two_by_two(rows), pair);
    let without = |left_out: usize| {
        let mut rows: Vec<&str> = FOUR_ROWS.split(' ').collect();
        rows.remove(left_out);
        rows.join(" ")
    };
    vec![
        none("the first pair not met", &without(0), (0, 0)),
        none("the second pair not met", &without(1), (0, 1)),
        none("the third pair not met", &without(2), (1, 0)),
        none("the last pair not met", &without(3), (1, 1)),
        none("a state not met", "55010000000300", (1, 0)),
        none("an action not met", "55030000000100", (0, 1)),
        none("only the last pair met", "55020000000200", (0, 0)),
        not_met(
            "three states, the last not met",
            file("50010302 520002 55030000000301"),
            (2, 0),
        ),
        not_met(
            "32 actions, the last not met",
            file("50010120 520002 55017FFFFFFF00"),
            (0, 31),
        ),
        not_met(
            "eight states, the last not met",
            file("50010801 520002 557F0000000107"),
            (7, 0),
        ),
        not_met(
            "nine states, the last not met",
            file("50010901 520002 5500FF0000000108"),
            (8, 0),
        ),
    ]
}

fn pairs_met_twice() -> Vec<FaultyTable> {
    let twice = |name, rows: &str, pair| met_twice(name, two_by_two(rows), pair);
    vec![
        twice(
            "the first pair twice",
            "55010000000100 55030000000301",
            (0, 0),
        ),
        twice(
            "the last pair twice",
            "55020000000200 55030000000301",
            (1, 1),
        ),
        twice("all pairs twice", "55030000000300 55030000000301", (0, 0)),
        twice(
            "all pairs twice, by a row and by four",
            "55010000000100 55010000000201 55020000000101 55020000000200 55030000000300",
            (0, 0),
        ),
        twice(
            "twice by rows that go to the same state",
            "55010000000301 55030000000301",
            (0, 0),
        ),
        twice(
            "a state and an action cross",
            "55010000000300 55020000000200 55030000000101",
            (0, 0),
        ),
        met_twice(
            "a pair three times",
            file("50010301 520002 55010000000101 55030000000101 55050000000102"),
            (0, 0),
        ),
        met_twice(
            "a later pair three times",
            file("50010301 520002 55010000000101 55020000000101 55020000000102 55060000000100"),
            (1, 0),
        ),
        met_twice(
            "16 states and 32 actions, the last pair twice",
            file("50011020 520002 5580008000000000 55FFFFFFFFFFFF00"),
            (15, 31),
        ),
    ]
}

/// Tables that have pairs of both faults: the first by state, then action, decides. The pairs are
/// (0, 0), (0, 1), (1, 0), (1, 1) in this order; by action, then state, the middle two would change
/// places.
fn first_faulty_pairs() -> Vec<FaultyTable> {
    let none = |name, rows: String, pair| not_met(name, two_by_two(&rows), pair);
    let twice = |name, rows: String, pair| met_twice(name, two_by_two(&rows), pair);
    let (first, second) = ("55010000000100", "55010000000201");
    let (third, last) = ("55020000000101", "55020000000200");
    vec![
        none(
            "(0, 0) not met, (0, 1) twice",
            format!("55010000000200 {second} {third} {last}"),
            (0, 0),
        ),
        twice(
            "(0, 0) twice, (0, 1) not met",
            format!("{first} 55010000000101 {third} {last}"),
            (0, 0),
        ),
        none(
            "(0, 1) not met, (1, 0) twice",
            format!("{first} 55020000000100 {third} {last}"),
            (0, 1),
        ),
        twice(
            "(0, 1) twice, (1, 0) not met",
            format!("{first} 55010000000200 {second} {last}"),
            (0, 1),
        ),
        none(
            "(0, 0) not met, (1, 1) twice",
            format!("{second} {third} {last} 55020000000201"),
            (0, 0),
        ),
        twice(
            "(0, 0) twice, (1, 1) not met",
            format!("{first} 55010000000101 {second} {third}"),
            (0, 0),
        ),
        none(
            "(1, 0) not met, (1, 1) twice",
            format!("{first} {second} {last} 55020000000201"),
            (1, 0),
        ),
        twice(
            "(1, 0) twice, (1, 1) not met",
            format!("{first} {second} 55020000000100 {third}"),
            (1, 0),
        ),
    ]
}

/// Tables in which, by action, then state, another pair would be the first.
fn first_by_state() -> Vec<FaultyTable> {
    vec![
        not_met(
            "(0, 3) and (1, 0) not met",
            file("50010204 520002 55010000000700 55020000000E01"),
            (0, 3),
        ),
        met_twice(
            "(0, 3) and (1, 0) twice",
            file("50010204 520002 55010000000800 55010000000F01 55020000000100 55020000000F01"),
            (0, 3),
        ),
        not_met(
            "(0, 31) not met, (1, 0) twice",
            file("50010220 520002 55017FFFFFFF00 55020000000101 5502FFFFFFFF00"),
            (0, 31),
        ),
        met_twice(
            "(0, 31) twice, (1, 0) not met",
            file("50010220 520002 55018000000000 5501FFFFFFFF00 5502FFFFFFFE00"),
            (0, 31),
        ),
        not_met(
            "(0, 5) not met, (8, 0) twice",
            file("50010C06 520002 5500010000001F00 5501000000000100 550FFE0000003F00"),
            (0, 5),
        ),
    ]
}

/// A row without a state bit or an action bit is in range, and meets no pair.
fn rows_without_a_bit() -> Vec<Case> {
    let bare = |name: &str, rows: &str, refusal, line| case(name, two_by_two(rows), refusal, line);
    let with_one = |rows: &str| format!("{rows} {ONE_ROW}");
    vec![
        bare("no bit at all", &with_one("55000000000000"), 0, 0),
        bare("no state bit", &with_one("55000000000301"), 0, 0),
        bare("no action bit", &with_one("55030000000000"), 0, 0),
        bare(
            "all three",
            &with_one("55000000000000 55000000000301 55010000000000"),
            0,
            0,
        ),
        bare("no bit at all, alone", "55000000000000", 19, 0),
        bare("no state bit, alone", "55000000000300", 19, 0),
        bare("no action bit, alone", "55030000000000", 19, 0),
        bare("no bit, next state Q", &with_one("55000000000002"), 5, 3),
        bare("no state bit, action A", &with_one("55000000000400"), 5, 3),
        bare("no action bit, state Q", "55040000000000", 5, 3),
        bare(
            "no bit repeated",
            &with_one("55000000000000 55000000000000"),
            4,
            4,
        ),
        bare(
            "no bit, next states ascend",
            &with_one("55000000000000 55000000000001"),
            0,
            0,
        ),
    ]
}
