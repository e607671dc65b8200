//! What is judged of a row: its count of numbers, its ranges, and where it stands.

use crate::cases::files::{case, Case};
use crate::cases::tables::{file, two_by_two, FOUR_ROWS};

pub fn all() -> Vec<Case> {
    let mut cases = Vec::new();
    cases.extend(wrong_counts());
    cases.extend(by_count_of_states());
    cases.extend(more_than_8_states());
    cases.extend(state_ranges());
    cases.extend(action_ranges());
    cases.extend(rows_in_order());
    cases.extend(both_kinds());
    cases.extend(lines_before_tables());
    cases
}

/// A row with every other count of numbers up to 9.
fn wrong_counts() -> Vec<Case> {
    let counts = (0..10).filter(|&count| count != 6);
    let row = |count: usize| format!("55{}", "01".repeat(count));
    let of_count = |count| {
        let name = format!("a row with {count} numbers");
        case(name, two_by_two(&row(count)), 3, 3)
    };
    counts.map(of_count).collect()
}

/// Above 8 states a row has seven numbers, else six.
fn by_count_of_states() -> Vec<Case> {
    let of = |states: u8, row: &str| file(&format!("5001{states:02X}01 520002 {row}"));
    vec![
        case("Q 8, a row of six", of(8, "55FF0000000107"), 0, 0),
        case("Q 8, a row of seven", of(8, "5500FF0000000107"), 3, 3),
        case("Q 9, a row of six", of(9, "55FF0000000107"), 3, 3),
        case("Q 9, a row of seven", of(9, "5501FF0000000108"), 0, 0),
        case("Q 9, a row of eight", of(9, "550001FF0000000108"), 3, 3),
        case("Q 16, a row of six", of(16, "55FF0000000107"), 3, 3),
        case("Q 16, a row of seven", of(16, "55FFFF000000010F"), 0, 0),
        case("Q 1, a row of seven", of(1, "5500010000000100"), 3, 3),
        case(
            "Q 9, six, out of order",
            of(9, "5501FF0000000108 5500"),
            3,
            4,
        ),
    ]
}

/// Rows of two numbers of state bits: the first of them holds states 15 to 8, and decides the order.
fn more_than_8_states() -> Vec<Case> {
    let nine = |rows: &str| file(&format!("50010901 520002 {rows}"));
    let (low, high) = ("5500FF0000000103", "5501000000000107");
    let high_first = format!("{high} {low}");
    vec![
        case("state bit 9, Q 9", nine("5503FF0000000100"), 5, 3),
        case("state bit 15, Q 9", nine("5581FF0000000100"), 5, 3),
        case("next state 9, Q 9", nine("5501FF0000000109"), 5, 3),
        case("state 8 by itself", nine(&format!("{low} {high}")), 0, 0),
        case("state 8 first", nine(&high_first), 4, 4),
        case("state 8 not met", nine(low), 19, 0),
        case("state 0 not met", nine("5501FE0000000100"), 19, 0),
        case(
            "state 8 twice",
            nine(&format!("{low} {high} 5501000000000108")),
            20,
            0,
        ),
        case(
            "no bit in two numbers",
            nine("5500000000000000 5501FF0000000100"),
            0,
            0,
        ),
    ]
}

/// State bits and next states at the edge of their range and past it.
fn state_ranges() -> Vec<Case> {
    let of = |states: u8, row: &str| file(&format!("5001{states:02X}01 520002 {row}"));
    vec![
        case("state bit Q - 1, Q 1", of(1, "55010000000100"), 0, 0),
        case("state bit Q, Q 1", of(1, "55030000000100"), 5, 3),
        case("state bit Q alone, Q 1", of(1, "55020000000100"), 5, 3),
        case("state bit Q - 1, Q 3", of(3, "55070000000100"), 0, 0),
        case("state bit Q, Q 3", of(3, "550F0000000100"), 5, 3),
        case("state bit 7, Q 3", of(3, "55870000000100"), 5, 3),
        case("state bit Q - 1, Q 7", of(7, "557F0000000100"), 0, 0),
        case("state bit Q, Q 7", of(7, "55FF0000000100"), 5, 3),
        case("state bit 7, Q 8", of(8, "55FF0000000100"), 0, 0),
        case("next state Q, Q 1", of(1, "55010000000101"), 5, 3),
        case("next state Q - 1, Q 3", of(3, "55070000000102"), 0, 0),
        case("next state Q, Q 3", of(3, "55070000000103"), 5, 3),
        case("next state 7, Q 8", of(8, "55FF0000000107"), 0, 0),
        case("next state 8, Q 8", of(8, "55FF0000000108"), 5, 3),
        case("next state 255, Q 8", of(8, "55FF00000001FF"), 5, 3),
    ]
}

/// Action bits at the edge of their range and past it, in each of their four numbers.
fn action_ranges() -> Vec<Case> {
    let of = |actions: u8, bits: &str| {
        let row = format!("5501{bits}00");
        file(&format!("500101{actions:02X} 520002 {row}"))
    };
    vec![
        case("action bit A - 1, A 1", of(1, "00000001"), 0, 0),
        case("action bit A, A 1", of(1, "00000003"), 5, 3),
        case("action bit 24, A 1", of(1, "01000000"), 5, 3),
        case("action bit A - 1, A 8", of(8, "000000FF"), 0, 0),
        case("action bit A, A 8", of(8, "000001FF"), 5, 3),
        case("action bit A - 1, A 9", of(9, "000001FF"), 0, 0),
        case("action bit A, A 9", of(9, "000003FF"), 5, 3),
        case("action bit A - 1, A 16", of(16, "0000FFFF"), 0, 0),
        case("action bit A, A 16", of(16, "0001FFFF"), 5, 3),
        case("action bit A - 1, A 24", of(24, "00FFFFFF"), 0, 0),
        case("action bit A, A 24", of(24, "01FFFFFF"), 5, 3),
        case("action bit A - 1, A 25", of(25, "01FFFFFF"), 0, 0),
        case("action bit A - 1, A 31", of(31, "7FFFFFFF"), 0, 0),
        case("action bit A, A 31", of(31, "FFFFFFFF"), 5, 3),
        case("action bit 31 alone, A 31", of(31, "80000000"), 5, 3),
        case("action bit 31, A 32", of(32, "FFFFFFFF"), 0, 0),
        case("action bits low first, A 8", of(8, "FF000000"), 5, 3),
    ]
}

/// Rows ascend strictly, compared left to right.
fn rows_in_order() -> Vec<Case> {
    let two = |name: &str, rows: &str, refusal, line| case(name, two_by_two(rows), refusal, line);
    vec![
        two("a row repeated", "55030000000301 55030000000301", 4, 4),
        two("state bits descend", "55020000000300 55010000000300", 4, 4),
        two("action bits descend", "55030000000200 55030000000100", 4, 4),
        two("next states descend", "55030000000301 55030000000300", 4, 4),
        two(
            "state bits ascend, all else descends",
            "55010000000301 55020000000200 55030000000100",
            20,
            0,
        ),
        two(
            "action bits ascend, next states descend",
            "55030000000101 55030000000200",
            0,
            0,
        ),
        case(
            "the highest number of action bits decides",
            file("50010120 520002 550100FFFFFF00 5501FF00000000"),
            0,
            0,
        ),
        case(
            "the same the other way",
            file("50010120 520002 5501FF00000000 550100FFFFFF00"),
            4,
            4,
        ),
        case(
            "rows before the steps",
            file("50010101 520002 55010000000100 5300000001"),
            4,
            4,
        ),
        case(
            "rows before the routine",
            file("50010101 55010000000100"),
            4,
            2,
        ),
        case(
            "rows after a start",
            file("50010101 520002 4900 55010000000100"),
            4,
            4,
        ),
        case(
            "rows between steps and starts",
            file("50010101 520002 5300000001 55010000000100 4900 4600"),
            0,
            0,
        ),
        case(
            "a second 50 after rows",
            file("50010101 520002 55010000000100 50010101"),
            4,
            4,
        ),
    ]
}

/// Rule lines and rows in one file, whichever comes first.
fn both_kinds() -> Vec<Case> {
    let two = |name: &str, rows: &str, refusal, line| case(name, two_by_two(rows), refusal, line);
    vec![
        two("54, then 55", "54000000 55030000000300", 4, 4),
        two("55, then 54", "55030000000300 54000000", 4, 4),
        two("two 54, then 55", "54000000 54000101 55030000000300", 4, 5),
        two("four 55, then 54", &format!("{FOUR_ROWS} 54010101"), 4, 7),
        two("55, 54, 55", "55010000000300 54010000 55020000000300", 4, 4),
        two(
            "54, then 55 that meets the rest",
            "54000000 55010000000200",
            4,
            4,
        ),
        two(
            "55, then a start, then 54",
            "55030000000300 4900 54000000",
            4,
            5,
        ),
        two("54, then 55 out of range", "54000000 55FF0000000300", 4, 4),
        two("55, then 54 out of range", "55030000000300 54FFFFFF", 4, 4),
        two("54, then 55 too short", "54000000 550300000003", 3, 4),
        two("54 alone, not complete", "54000000", 0, 0),
        two("54 alone, two next states", "54000000 54000001", 0, 0),
    ]
}

/// A table is judged only where no line is refused.
fn lines_before_tables() -> Vec<Case> {
    let faulty = "50010202 520002 55010000000300";
    let with_end = |end: &str| {
        let lines = faulty.replace(' ', "\n");
        format!("{lines}\n{end}")
    };
    vec![
        case("not met", with_end("450003\n"), 19, 0),
        case(
            "not met, and the end count is wrong",
            with_end("450002\n"),
            7,
            4,
        ),
        case(
            "not met, the end counts rule lines",
            with_end("450006\n"),
            7,
            4,
        ),
        case("not met, and no end", with_end(""), 8, 4),
        case(
            "not met, and a line after the end",
            with_end("450003\n\n"),
            8,
            5,
        ),
        case("not met, and no 0A", with_end("450003"), 1, 4),
        case(
            "not met, and a start out of range",
            with_end("4902\n"),
            5,
            4,
        ),
        case("not met, and of no kind", with_end("56\n"), 2, 4),
        case(
            "twice, and a forbidden state out of range",
            "50010202\n520002\n55030000000300\n55030000000301\n4602\n",
            5,
            5,
        ),
        case("a row in lower case", two_by_two("5503000000030a"), 1, 3),
        case("a row of odd digits", two_by_two("5503000000030"), 1, 3),
    ]
}
