//! Where runs are cut off, worked out by hand: by an action, by a call, and by a return, of main too.

use crate::cases::sample::{self, rewritten};
use crate::cases::tables::{completed, file};
use crate::cases::{analyses, heard};
use crate::model::analysis::NONE;
use crate::model::blocked::Blocked;
use crate::model::lines::text_of;
use crate::model::write::end;

/// A file, and where its runs are cut off.
pub struct BlockedCase {
    pub name: &'static str,
    pub file: Vec<u8>,
    pub blocked: Vec<Blocked>,
}

/// A case with the numbers of the standings, each with that of the first step that is blocked there.
fn case(name: &'static str, file: impl Into<Vec<u8>>, blocked: &[(u32, u32)]) -> BlockedCase {
    let numbers = blocked.iter();
    BlockedCase {
        name,
        file: file.into(),
        blocked: numbers
            .map(|&(standing, step)| Blocked { standing, step })
            .collect(),
    }
}

pub fn all() -> Vec<BlockedCase> {
    [by_steps(), by_returns(), of_main(), at_limits()]
        .into_iter()
        .flatten()
        .collect()
}

fn by_steps() -> Vec<BlockedCase> {
    let four = "5300000001 5300000101 5300000201 5300000301";
    let calls = "5300000001 5300004001 5300004101";
    vec![
        case("the sample", sample::FILE, &[]),
        case("no start state", analyses::no_start(), &[]),
        case("all pairs of a table", completed::in_rows(), &[]),
        case(
            "an action without a line",
            rewritten(10, 10, &[]),
            &[(19, 1)],
        ),
        case("a call nobody makes", heard::no_call(), &[(0, 0)]),
        case(
            "the second and the last of four steps",
            file(&format!("50010104 520002 {four} 54000000 54000200 4900")),
            &[(0, 1)],
        ),
        case(
            "a call, after one that is not heard",
            file(&format!(
                "50020201 520002 520102 {calls} 54000000 54014101 4900"
            )),
            &[(0, 2)],
        ),
        case(
            "one of two start states",
            file("50010201 520002 5300000001 54000000 4900 4901"),
            &[(3, 0)],
        ),
    ]
}

fn by_returns() -> Vec<BlockedCase> {
    let two_roots = ["54004100", "54004101", "54006100"];
    let steps = "5300004102 5301000001";
    let rule = "54000000 54004100 54004101 54006100 54010001";
    vec![
        case("a return nobody makes", heard::no_return(), &[(37, NONE)]),
        case(
            "two roots, and no return from either",
            rewritten(9, 8, &two_roots),
            &[(37, NONE), (40, NONE)],
        ),
        case(
            "two roots, and a return from one",
            file(&format!("50020201 520003 520102 {steps} {rule} 4900")),
            &[(19, NONE)],
        ),
    ]
}

/// Main has three places, and acts once, from its entry to its exit.
fn of_main() -> Vec<BlockedCase> {
    let itself = "5300000001 5300004002";
    let two_states = |steps: &str, rule: &str| {
        let lines = format!("50010201 520003 {steps} {rule} 4900");
        file(&lines)
    };
    let two_routines = |steps: &str| {
        let lines = format!("50020201 520003 520102 {steps} 54000000 54016001 4900");
        file(&lines)
    };
    vec![
        case(
            "main, called by itself, cannot return",
            two_states(itself, "54000001 54006000"),
            &[(5, NONE)],
        ),
        case(
            "main, not called, has no return to make",
            two_states("5300000001", "54000001 54006000"),
            &[],
        ),
        case(
            "main, called with another root",
            file(&format!(
                "50010301 520003 {itself} 54000000 54004001 54010001 54026002 4900"
            )),
            &[(4, 1), (13, NONE)],
        ),
        case(
            "main would call itself, and cannot",
            two_states(itself, "54000000 54014001 54016001"),
            &[(0, 1)],
        ),
        case(
            "main, called by a routine that it calls",
            two_routines("5300000001 5300004102 5301004001"),
            &[(4, NONE)],
        ),
        case(
            "main, called by a routine that nobody calls",
            two_routines("5300000001 5301004001"),
            &[],
        ),
    ]
}

/// The 256th step, and the last number there can be.
fn at_limits() -> Vec<BlockedCase> {
    vec![
        case("the last step of 256", last_step(), &[(2, 255)]),
        case(
            "the last standing of 16384",
            last_standing(),
            &[(16_383, 1)],
        ),
    ]
}

/// One state; main's entry leads to all 64 places by 255 steps, and from place 2 there is one more, by
/// an action that is not allowed.
fn last_step() -> Vec<u8> {
    let mut frames = vec![vec![0x50, 1, 1, 5], vec![0x52, 0, 64]];
    let from_entry = (0..4).flat_map(|label| (0..64).map(move |to| vec![0x53, 0, 0, label, to]));
    frames.extend(from_entry.take(255));
    frames.push(vec![0x53, 0, 2, 4, 1]);
    frames.extend((0..4).map(|action| vec![0x54, 0, action, 0]));
    frames.push(vec![0x49, 0]);
    frames.push(end(frames.len()));
    text_of(&frames)
}

/// 64 places and 16 states; in state 15 main goes on to its last place, and cannot leave it.
fn last_standing() -> Vec<u8> {
    file("50011002 520040 530000003F 53003F0101 540F000F 490F")
}
