//! The fixed cases: inputs that are known by name, with the answers worked out by hand. The model and
//! the library are both held to them.
//!
//! - `sample` is the sample program F and its file with one thing changed, and `small` puts down
//!   small programs as text.
//! - `files` has files, `edits` has edit lines, and `exchanges` has texts of exchanges, each with its
//!   refusal; `tables` has the files with rows, what they are written as, and repairs of one of them.
//! - `analyses`, `keepings` and `repairs` have what these calls leave; what exchanges leave stands with
//!   their texts. `heard` has all of these for rules that hear calls and returns. `limits` has fresh
//!   workings with a limit on the takings, `blocked` has where runs are cut off, and `saved` has saved
//!   sheets in both forms.
//! - `inputs` has inputs of `bench`.

pub mod analyses;
pub mod blocked;
pub mod edits;
pub mod exchanges;
pub mod files;
pub mod heard;
pub mod inputs;
pub mod keepings;
pub mod limits;
pub mod repairs;
pub mod sample;
pub mod saved;
pub mod small;
pub mod tables;

use crate::cases::edits::EditCase;
use crate::cases::repairs::RepairCase;
use crate::model::change::Form;

/// Every named text of a form, with its refusal.
pub fn named_texts(form: Form) -> Vec<EditCase> {
    match form {
        Form::Edit => [edits::all(), heard::edits()]
            .into_iter()
            .flatten()
            .collect(),
        Form::Exchange => [exchanges::texts::all(), heard::texts()]
            .into_iter()
            .flatten()
            .collect(),
    }
}

/// The changes by texts of a form that are worked out by hand.
pub fn worked_out(form: Form) -> Vec<RepairCase> {
    match form {
        Form::Edit => [repairs::all(), heard::repairs()]
            .into_iter()
            .flatten()
            .collect(),
        Form::Exchange => [exchanges::results::all(), heard::exchanges()]
            .into_iter()
            .flatten()
            .collect(),
    }
}
