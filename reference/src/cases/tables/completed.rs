//! The sample with its rule completed, so that it can be put down in rows too, and repairs of it.

use crate::cases::sample;
use crate::model::change::Form;

/// The sample's steps.
const STEPS: [&str; 3] = ["5300004102", "5300020101", "5301000001"];
/// Its rule says nothing of state 2. Completed, it stays in state 2 on both actions: in lines, and in
/// rows.
const LINES: [&str; 6] = [
    "54000001", "54000102", "54010001", "54010101", "54020002", "54020102",
];
const ROWS: [&str; 4] = [
    "55010000000101",
    "55010000000202",
    "55020000000301",
    "55040000000302",
];

/// The sample's routines.
const ROUTINES: [&str; 2] = ["520003", "520102"];

/// The sample with these steps and this rule.
fn sample_with(steps: &[&str], rule: &[&str]) -> Vec<u8> {
    rewritten(&ROUTINES, steps, rule)
}

/// The sample with these routines too.
fn rewritten(routines: &[&str], steps: &[&str], rule: &[&str]) -> Vec<u8> {
    sample::rewritten(2, 10, &[routines, steps, rule].concat())
}

pub fn in_lines() -> Vec<u8> {
    sample_with(&STEPS, &LINES)
}

pub fn in_rows() -> Vec<u8> {
    sample_with(&STEPS, &ROWS)
}

/// The completed sample's steps with the one that breaks the rule: from main's entry to place 2 by
/// action 1.
const BREAKING: [&str; 4] = ["5300000102", "5300004102", "5300020101", "5301000001"];

pub fn broken_in_lines() -> Vec<u8> {
    sample_with(&BREAKING, &LINES)
}

pub fn broken_in_rows() -> Vec<u8> {
    sample_with(&BREAKING, &ROWS)
}

/// The standings of the completed sample with the step that breaks the rule. State 2 is now followed
/// to main's exit, by the lines that the sample does not have.
pub const BROKEN_STANDINGS: [usize; 7] = [0, 10, 11, 19, 20, 27, 37];

/// An edit of the completed sample in rows, or an exchange: the refusal, 0 if none, the numbers marked
/// after it, the routines that an inside-out repair reopens, bit f for routine f, and the file, in
/// lines, that is written.
pub struct RowsRepair {
    pub name: &'static str,
    pub text: &'static [u8],
    pub refusal: u32,
    pub left: Vec<usize>,
    pub reopened: u32,
    pub written: Vec<u8>,
}

/// Those by texts of a form.
pub fn repairs(form: Form) -> Vec<RowsRepair> {
    match form {
        Form::Edit => edits(),
        Form::Exchange => exchanges(),
    }
}

fn refused(name: &'static str, text: &'static [u8], refusal: u32) -> RowsRepair {
    RowsRepair {
        name,
        text,
        refusal,
        left: sample::STANDINGS.to_vec(),
        reopened: 0,
        written: Vec::new(),
    }
}

fn edits() -> Vec<RowsRepair> {
    let accepted = |name, text, left: &[usize], reopened, steps: &[&str]| RowsRepair {
        name,
        text,
        refusal: 0,
        left: left.to_vec(),
        reopened,
        written: sample_with(steps, &LINES),
    };
    let relabelled = ["5300004102", "5300020101", "5301000101"];
    vec![
        accepted(
            "a step that breaks the rule",
            b"2B00000102\n",
            &BROKEN_STANDINGS,
            0b01,
            &BREAKING,
        ),
        accepted("a step", b"2D01000001\n", &[0, 27], 0b11, &STEPS[..2]),
        accepted("a call", b"2D00004102\n", &[0], 0b01, &STEPS[1..]),
        accepted(
            "another label",
            b"3D0100000101\n",
            &[0, 11, 20, 27, 38],
            0b11,
            &relabelled,
        ),
        refused("no line", b"", 12),
        refused("a row as an edit", b"55010000000101\n", 12),
        refused("action A", b"2B00000202\n", 13),
        refused("an absent step", b"2D00000102\n", 14),
        refused("a label by itself", b"3D0000410241\n", 15),
    ]
}

fn exchanges() -> Vec<RowsRepair> {
    let accepted = |name, text, left: &[usize], routines: &[&str], steps: &[&str]| RowsRepair {
        name,
        text,
        refusal: 0,
        left: left.to_vec(),
        reopened: 0b11,
        written: rewritten(routines, steps, &LINES),
    };
    let itself = b"520102\n5301000001\n";
    let two_actions = b"520103\n5301000002\n5301020101\n";
    let longer = ["520003", "520103"];
    let steps = ["5300004102", "5300020101", "5301000002", "5301020101"];
    let left = &[0, 10, 19, 27, 37, 46];
    vec![
        accepted("for itself", itself, &sample::STANDINGS, &ROUTINES, &STEPS),
        accepted("longer", two_actions, left, &longer, &steps),
        accepted("no step", b"520102\n", &[0, 27], &ROUTINES, &STEPS[..2]),
        refused("no line", b"", 12),
        refused("a row after it", b"520102\n55010000000101\n", 12),
        refused("65 places", b"520141\n", 13),
        refused("a step first", b"5301000001\n", 21),
    ]
}

#[cfg(test)]
mod tests {
    use super::*;
    use crate::model::analysis::{analyze, Analysis};
    use crate::model::file::read;

    fn analysis(file: &[u8]) -> Analysis {
        analyze(&read(file).expect("the file is accepted"))
    }

    #[test]
    fn the_completed_sample_is_the_same_in_lines_and_in_rows() {
        assert_eq!(read(&in_rows()), read(&in_lines()));
        assert_eq!(analysis(&in_rows()), analysis(&in_lines()));
        assert_eq!(analysis(&in_rows()), analysis(sample::FILE));
        assert_eq!(analysis(&broken_in_rows()), analysis(&broken_in_lines()));
    }
}
