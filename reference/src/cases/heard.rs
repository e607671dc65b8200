//! Cases in which the rule hears calls and returns, each with the answer worked out by hand.
//!
//! Most of them are the sample with a few rule lines more. There main's entry calls routine 1 in state
//! 0, routine 1 acts once, which leads from state 0 or 1 to 1, and main goes on at place 2 by action 1,
//! which leads from 0 to 2 and from 1 to 1.

use crate::cases::analyses::AnalysisCase;
use crate::cases::edits::{of_sample, EditCase};
use crate::cases::files::{case, large, with_routines, Case};
use crate::cases::keepings::KeepingCase;
use crate::cases::repairs::{accepted, RepairCase};
use crate::cases::sample::{self, inserted, replaced};
use crate::cases::tables::two_by_two;
use crate::model::file::read;
use crate::model::lines::{line_of, text_of};
use crate::model::program::Program;
use crate::model::write::end;

/// The sample with these rule lines more, which stand in order after those from state 0 by actions, or
/// after all others.
fn sample_with(lines: &[&str]) -> Vec<u8> {
    let line = if lines[0] < "54010001" { 9 } else { 11 };
    sample::rewritten(line, line - 1, lines)
}

fn program(file: &[u8]) -> Program {
    read(file).expect("the file is accepted")
}

/// The call of 1 in state 0 gives root 1.
pub fn other_root() -> Vec<u8> {
    sample_with(&["54004101"])
}
const OTHER_ROOT: [usize; 5] = [0, 10, 19, 31, 40];

/// The call of 1 in state 0 gives both roots.
pub fn two_roots() -> Vec<u8> {
    sample_with(&["54004100", "54004101"])
}

/// The return of 1 in state 1 leads to 0 and to 2, and so into what is forbidden.
pub fn two_returns() -> Vec<u8> {
    sample_with(&["54016100", "54016102"])
}
const TWO_RETURNS: [usize; 6] = [0, 11, 18, 20, 27, 37];

/// The call of 1 is heard in state 2 only, so main cannot make it.
pub fn no_call() -> Vec<u8> {
    sample_with(&["54024102"])
}

/// The return of 1 is heard in state 0 only, in which it does not end.
pub fn no_return() -> Vec<u8> {
    sample_with(&["54006100"])
}

/// The calls of both routines are heard, and both returns.
fn everything() -> Vec<u8> {
    let of_0 = ["54004002", "54004101", "54006000"];
    let of_1 = ["54010001", "54010101", "54014001", "54016102"];
    sample::rewritten(9, 10, &[&of_0[..], &of_1].concat())
}

/// Main calls itself at its entry, by a call that leads from 0 to 1 and from 1 to 1; it ends by an
/// action, and by a return that leads from 1 to 0.
fn main_calls_itself() -> Vec<u8> {
    let lines = "50010201\n520003\n5300000001\n5300004002\n54000001\n54004001\n54010001\n54014001";
    let file = format!("{lines}\n54016000\n4900\n");
    [file.into_bytes(), line_of(&end(10))].concat()
}

pub fn analyses() -> Vec<AnalysisCase> {
    let case = |name, file, standings: &[usize], findings: &[u32], takings| AnalysisCase {
        name,
        file,
        standings: standings.to_vec(),
        findings: findings.to_vec(),
        takings,
    };
    let seven = &[0, 10, 19, 27, 31, 37, 40];
    let moved = &[0, 20, 31, 40];
    // The inner main returns to the outer one at place 2, in state 0, and to itself likewise.
    let itself = &[0, 3, 5, 7, 8, 10];
    vec![
        case("another root", other_root(), &OTHER_ROOT, &[], 6),
        case("two roots", two_roots(), seven, &[], 9),
        case("two returns", two_returns(), &TWO_RETURNS, &[11, 20], 7),
        case("a call nobody makes", no_call(), &[0], &[], 1),
        case("a return nobody makes", no_return(), &[0, 27, 37], &[], 4),
        case("everything is heard", everything(), moved, &[20], 5),
        case("main hears itself", main_calls_itself(), itself, &[], 8),
    ]
}

/// A sheet of the sample with these marks.
fn marks(numbers: &[usize]) -> Vec<u8> {
    let mut sheet = vec![0; 54];
    for &number in numbers {
        sheet[number] = 1;
    }
    sheet
}

/// A call supports only the entries that its move gives, and a return only what its move gives.
pub fn keepings() -> Vec<KeepingCase> {
    let case = |file: Vec<u8>, sheet, left: &[usize]| KeepingCase {
        program: program(&file),
        sheet,
        left: left.to_vec(),
    };
    let all = || vec![0xFF; 54];
    let with_former_root = [&OTHER_ROOT[..], &[27, 37]].concat();
    let with_former_return = [&TWO_RETURNS[..], &[19, 10]].concat();
    vec![
        case(other_root(), all(), &OTHER_ROOT),
        case(other_root(), marks(&with_former_root), &OTHER_ROOT),
        case(other_root(), marks(&[0, 10, 19, 40]), &[0]),
        case(other_root(), marks(&[0, 10, 19, 31]), &[0, 31]),
        case(other_root(), marks(&[0, 19, 27, 37]), &[0]),
        case(two_returns(), all(), &TWO_RETURNS),
        case(two_returns(), marks(&with_former_return), &TWO_RETURNS),
        case(two_returns(), marks(&[0, 11, 20, 27, 37]), &[0, 20, 27, 37]),
        case(no_call(), all(), &[0]),
        case(no_return(), all(), &[0, 27, 37]),
    ]
}

/// Reopened routines go by pairs, which end before the return's move, and by roots, which begin after
/// the call's.
pub fn repairs() -> Vec<RepairCase> {
    let root = &program(&other_root());
    let roots = &program(&two_roots());
    let no_return = &program(&no_return());
    let no_call = &program(&no_call());
    let (step, call, fault) = (b"2D01000001\n", b"2D00004102\n", b"2B00000102\n");
    let label = b"3D0100000101\n";
    let six = &[0, 10, 19, 20, 31, 40];
    let eight = &[0, 10, 19, 20, 27, 31, 38, 40];
    vec![
        accepted("another root, a step", root, step, &[0, 31], 0b11),
        accepted("another root, the call", root, call, &[0], 0b01),
        accepted("another root, a fault", root, fault, six, 0b01),
        accepted("two roots, another label", roots, label, eight, 0b11),
        accepted("no return, a step", no_return, step, &[0, 27], 0b11),
        accepted("no call, a step", no_call, step, &[0], 0b10),
        accepted("no call, a fault", no_call, fault, &[0, 20], 0b01),
    ]
}

pub fn exchanges() -> Vec<RepairCase> {
    let root = &program(&other_root());
    let no_call = &program(&no_call());
    let no_return = &program(&no_return());
    let five = &OTHER_ROOT;
    let itself = b"520102\n5301000001\n";
    let main = b"520003\n5300004102\n5300020101\n";
    let three = &[0, 27, 37];
    vec![
        accepted("another root, for itself", root, itself, five, 0b11),
        accepted("another root, no step", root, b"520102\n", &[0, 31], 0b11),
        accepted("another root, main for itself", root, main, five, 0b11),
        accepted("no call, for itself", no_call, itself, &[0], 0b10),
        accepted("no return, for itself", no_return, itself, three, 0b11),
    ]
}

/// Named files: the labels of rule lines, and where their lines stand.
pub fn files() -> Vec<Case> {
    let label = |label: &str| replaced(8, &format!("5400{label}02"));
    let of_16 = |label: &str| {
        let mut lines = with_routines(16);
        let last = lines.len() - line_of(&end(0)).len();
        lines.truncate(last);
        [lines, format!("5400{label}00\n450012\n").into_bytes()].concat()
    };
    let mut cases = Vec::new();
    for text in ["40", "41", "60", "61"] {
        cases.push(case(format!("rule on {text}"), label(text), 0, 0));
    }
    for text in [
        "02", "20", "3F", "42", "4F", "50", "5F", "62", "6F", "70", "7F", "FF",
    ] {
        cases.push(case(format!("rule on {text}, of 2"), label(text), 5, 8));
    }
    for (text, refusal, line) in [
        ("4F", 0, 0),
        ("50", 5, 18),
        ("5F", 5, 18),
        ("6F", 0, 0),
        ("70", 5, 18),
        ("7F", 5, 18),
    ] {
        cases.push(case(
            format!("rule on {text}, of 16"),
            of_16(text),
            refusal,
            line,
        ));
    }
    cases.extend(files_by_order());
    cases.extend(full_rules());
    cases
}

fn files_by_order() -> Vec<Case> {
    let two = |one: &str, other: &str| sample::rewritten(9, 8, &[one, other]);
    let rows = "55030000000301";
    let row_first = two_by_two(&format!("{rows} 54004000"));
    let line_first = two_by_two(&format!("54006000 {rows}"));
    vec![
        case("call, then return", two("54004101", "54006101"), 0, 0),
        case("return, then call", two("54006101", "54004101"), 4, 10),
        case("the same call twice", two("54004101", "54004101"), 4, 10),
        case("the same return twice", two("54006001", "54006001"), 4, 10),
        case(
            "a call to a lower state",
            two("54004101", "54004100"),
            4,
            10,
        ),
        case("a call before an action", inserted(7, "54004101"), 4, 8),
        case("a call to state Q", two("54004103", "54004200"), 5, 9),
        case("a return from state Q", inserted(11, "54036100"), 5, 11),
        case("a row, then a call", row_first, 4, 4),
        case("a return, then a row", line_first, 4, 4),
        case("a step by a return", replaced(6, "5301006001"), 5, 6),
        case("a step by the last return", replaced(6, "5301006101"), 5, 6),
    ]
}

/// Lines for calls and returns count towards the 512.
fn full_rules() -> Vec<Case> {
    let with = |count, last: [u8; 4]| large(0, count, &[last.to_vec()]);
    vec![
        case("512th, on a call", with(511, [0x54, 7, 0x4F, 7]), 0, 0),
        case("512th, on a return", with(511, [0x54, 7, 0x6F, 7]), 0, 0),
        case("513th, on a call", with(512, [0x54, 7, 0x4F, 7]), 6, 530),
        case("513th, on a return", with(512, [0x54, 7, 0x6F, 7]), 6, 530),
        case("513th, on label 50", with(512, [0x54, 7, 0x50, 7]), 5, 530),
        case("513th, on label 70", with(512, [0x54, 7, 0x70, 7]), 5, 530),
    ]
}

/// No edit and no exchange gives a step the label of a return.
pub fn edits() -> Vec<EditCase> {
    vec![
        of_sample("add by label 5F", "2B01005F00\n", 13),
        of_sample("add by main's return", "2B01006000\n", 13),
        of_sample("add by a return", "2B01006100\n", 13),
        of_sample("drop by a return", "2D01006101\n", 13),
        of_sample("replace a return", "3D0100610101\n", 13),
        of_sample("replace by main's return", "3D0100000160\n", 13),
        of_sample("replace by a return", "3D0100000161\n", 13),
    ]
}

pub fn texts() -> Vec<EditCase> {
    let of = |name: &str, label: u8| {
        let text = text_of(&[vec![0x52, 1, 3], vec![0x53, 1, 0, label, 1]]);
        let text = String::from_utf8(text).expect("digits");
        of_sample(name, &text, 13)
    };
    vec![
        of("a step by label 5F", 0x5F),
        of("a step by main's return", 0x60),
        of("a step by its own return", 0x61),
        of("a step by return 62", 0x62),
    ]
}
