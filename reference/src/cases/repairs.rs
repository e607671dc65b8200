//! Repairs that are worked out by hand. P5 to P10 are the scope paper's.

use crate::cases::sample;
use crate::cases::small::{after, dropped, program};
use crate::model::program::Program;

/// An edit line or the text of an exchange for a program, the refusal that it gets, 0 if none, the
/// numbers that are marked after it, and the routines that an inside-out repair reopens, bit f for
/// routine f.
pub struct RepairCase {
    pub name: &'static str,
    pub program: Program,
    pub text: &'static [u8],
    pub refusal: u32,
    pub left: Vec<usize>,
    pub reopened: u32,
}

pub fn accepted(
    name: &'static str,
    program: &Program,
    text: &'static [u8],
    left: &[usize],
    reopened: u32,
) -> RepairCase {
    RepairCase {
        name,
        program: program.clone(),
        text,
        refusal: 0,
        left: left.to_vec(),
        reopened,
    }
}

fn refused(name: &'static str, text: &'static [u8], refusal: u32) -> RepairCase {
    RepairCase {
        name,
        program: sample::program(),
        text,
        refusal,
        left: sample::STANDINGS.to_vec(),
        reopened: 0,
    }
}

pub fn all() -> Vec<RepairCase> {
    let mut cases = drops();
    cases.extend(adds_and_replaces());
    cases.push(refused("P9, a label by itself", b"3D0000410241\n", 15));
    cases.push(refused("P10, an absent step", b"2D00000102\n", 14));
    cases
}

fn drops() -> Vec<RepairCase> {
    let sample = &sample::program();
    let never_returns = &dropped(sample, "01000001");
    let calls_itself = &after(&main_alone(), "2B00004001");
    let (step, call, own_call) = (b"2D01000001\n", b"2D00004102\n", b"2D00004001\n");
    vec![
        accepted("P5, a step", sample, step, &[0, 27], 0b11),
        accepted("P6, a call", sample, call, &[0], 0b01),
        accepted("the call after the step", never_returns, call, &[0], 0b01),
        accepted("main's call of itself", calls_itself, own_call, &[0], 0b01),
    ]
}

fn adds_and_replaces() -> Vec<RepairCase> {
    let sample = &sample::program();
    let uncalled = &dropped(sample, "00004102");
    let bare = &dropped(uncalled, "01000001");
    let main_alone = &main_alone();
    let (five, six) = (&sample::STANDINGS, &[0, 10, 19, 20, 27, 37]);
    let other = &[0, 20, 27, 38];
    let (unseen, call, fault) = (b"2B01000101\n", b"2B00004102\n", b"2B00000102\n");
    let (own_call, label) = (b"2B00004001\n", b"3D0100000101\n");
    vec![
        accepted("P7, main calls itself", main_alone, own_call, &[0], 0b00),
        accepted("P8, nobody calls it", uncalled, unseen, &[0], 0b00),
        accepted("nor when it is bare", bare, unseen, &[0], 0b00),
        accepted("the call comes back", uncalled, call, five, 0b11),
        accepted("a step that breaks the rule", sample, fault, six, 0b01),
        accepted("another label", sample, label, other, 0b11),
    ]
}

/// The sample without a step.
fn main_alone() -> Program {
    program("50020302 520003 520102 54000001 54000102 54010001 54010101 4900")
}

/// A program, and drops of it with the routines that they reopen: beyond the group only where pairs
/// change. Main calls 1, 1 calls 2, 2 calls 3; main has a step of its own, and 4 is called by nobody.
pub fn reopenings() -> (Program, [(&'static [u8], u32); 6]) {
    let routines = "520003 520102 520203 520302 520402";
    let calls =
        "5300000002 5300004101 5301004201 5302000001 5302000102 5302004302 5303000001 5304004301";
    let program = program(&format!(
        "50050202 {routines} {calls} 54000000 54000101 54010001 4900"
    ));
    let drops: [(&[u8], u32); 6] = [
        (b"2D03000001\n", 0b11100),
        (b"2D02000001\n", 0b00111),
        (b"2D02000102\n", 0b00100),
        (b"2D01004201\n", 0b00011),
        (b"2D00000002\n", 0b00001),
        (b"2D04004301\n", 0b10000),
    ];
    (program, drops)
}

#[cfg(test)]
mod tests {
    use super::*;

    #[test]
    fn a_call_that_is_dropped_and_put_back_gives_the_sample() {
        let uncalled = dropped(&sample::program(), "00004102");
        assert_eq!(after(&uncalled, "2B00004102"), sample::program());
    }
}
