//! Keepings that are worked out by hand. The last three are points at which the method's description
//! misleads.

use crate::cases::sample;
use crate::cases::small::{dropped, program};
use crate::model::analysis::own_sheet;
use crate::model::program::Program;

/// A program, a sheet, and the numbers of the marks that stay.
pub struct KeepingCase {
    pub program: Program,
    pub sheet: Vec<u8>,
    pub left: Vec<usize>,
}

fn case(program: &Program, sheet: Vec<u8>, left: &[usize]) -> KeepingCase {
    KeepingCase {
        program: program.clone(),
        sheet,
        left: left.to_vec(),
    }
}

/// The sample's own sheet with one mark missing: what lies behind it goes.
pub fn gaps() -> Vec<KeepingCase> {
    let without = |gap: usize, left: &[usize]| {
        let mut sheet = own_sheet(&sample::program());
        sheet[gap] = 0;
        case(&sample::program(), sheet, left)
    };
    vec![
        without(0, &[]),
        without(10, &[0, 19, 27, 37]),
        without(19, &[0, 27, 37]),
        without(27, &[0]),
        without(37, &[0, 27]),
    ]
}

/// A call that never returns supports the called entry, also at a further drop.
pub fn unreturned_call() -> Vec<KeepingCase> {
    let returns = sample::program();
    let never_returns = dropped(&returns, "01000001");
    let further = dropped(&never_returns, "00020101");
    vec![
        case(&never_returns, own_sheet(&returns), &[0, 27]),
        case(&further, own_sheet(&never_returns), &[0, 27]),
    ]
}

/// Main acts, and calls itself in state 1, which is no start state.
pub fn main_calls_itself() -> Program {
    program("50010201 520003 5300000002 5300024001 54000001 4900")
}

/// Main called in another state is no start: once the call is dropped, it goes.
pub fn main_called_in_another_state() -> Vec<KeepingCase> {
    let called = main_calls_itself();
    let uncalled = dropped(&called, "00024001");
    vec![case(&uncalled, own_sheet(&called), &[0, 9])]
}

/// Routines 1 and 2 call each other, and main calls the first of them.
pub fn two_that_call_each_other() -> Program {
    let routines = "520002 520103 520202";
    let calls = "5300004101 5301004202 5301020001 5302000001 5302004101";
    program(&format!(
        "50030201 {routines} {calls} 54000000 54000001 4900"
    ))
}

/// Two routines that call each other do not support each other, once main's call is gone.
pub fn no_outside_call() -> Vec<KeepingCase> {
    let called = two_that_call_each_other();
    let uncalled = dropped(&called, "00004101");
    vec![
        case(&uncalled, own_sheet(&called), &[0]),
        case(&uncalled, vec![0xFF; 36], &[0]),
    ]
}
