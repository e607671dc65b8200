//! The calls of the C interface: what the library has to answer to each, and what it has to leave
//! in all that is lent.
//!
//! - `files` has the calls that take a file: reading it, finding the first faulty pair of its table, and
//!   writing it back.
//! - `sheets` has those that take a sheet too: the fresh working, the list of findings, the list of where
//!   runs are cut off, the keeping.
//! - `repairs` has the two repairs.
//! - `saved` has those that move a saved sheet from one form to the other.
//! - `sizes` has those that say how long the buffers of the others have to be.

pub mod files;
pub mod repairs;
pub mod saved;
pub mod sheets;
pub mod sizes;

use crate::model::refusals::{refuse_if, Refused, OUTPUT_SHORT, SHEET_LENGTH, WORK_LENGTH};
use crate::model::standing::Sizes;
use crate::model::write::OUTPUT_SIZE;

/// What a call answers: the refusal's number and its line, 0 where there is none, and the value that
/// the call has, all 0 on a refusal; only the faulty pair of a table comes with one.
#[derive(Clone, Copy, Debug, Default, PartialEq, Eq)]
pub struct Answer<V> {
    pub refusal: u32,
    pub line: u32,
    pub value: V,
}

impl<V: Default> Answer<V> {
    pub fn refused(refusal: u32, line: u32) -> Answer<V> {
        Answer {
            refusal,
            line,
            value: V::default(),
        }
    }
}

impl<V: Default> From<Result<V, Refused>> for Answer<V> {
    fn from(outcome: Result<V, Refused>) -> Answer<V> {
        match outcome {
            Err(refused) => Answer::refused(refused.number, refused.line),
            Ok(value) => Answer {
                refusal: 0,
                line: 0,
                value,
            },
        }
    }
}

/// Refusal 9, by the length of a sheet and the one that it has to have.
pub fn check_sheet(length: usize, wanted: usize) -> Result<(), u32> {
    refuse_if(length != wanted, SHEET_LENGTH)
}

/// Refusal 10, by the length of the output.
pub fn check_output(length: usize) -> Result<(), u32> {
    refuse_if(length < OUTPUT_SIZE, OUTPUT_SHORT)
}

/// Refusal 11, by the length of the working buffer and the one that it has to have.
pub fn check_work(length: usize, wanted: usize) -> Result<(), u32> {
    refuse_if(length != wanted, WORK_LENGTH)
}

/// How long the working buffer of an exchange has to be: as long as the longer of the two sheets.
pub fn work_of_exchange(before: Sizes, after: Sizes) -> usize {
    before.length().max(after.length())
}
