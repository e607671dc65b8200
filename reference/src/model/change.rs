//! Changes of a program: a step, by an edit line, or a whole routine, by the text of an exchange.

use crate::model::edit::{edit_of_line, edited, Edit};
use crate::model::exchange::{emptied, exchange_of_text, exchanged, Exchange};
use crate::model::program::Program;

/// What a call takes its text for.
#[derive(Clone, Copy, Debug, PartialEq, Eq, PartialOrd, Ord)]
pub enum Form {
    Edit,
    Exchange,
}

#[derive(Clone, Debug, PartialEq, Eq)]
pub enum Change {
    Edit(Edit),
    Exchange(Exchange),
}

impl Change {
    /// The change that a text says for this program; or 12, 13 or 21.
    pub fn of_text(form: Form, program: &Program, text: &[u8]) -> Result<Change, u32> {
        match form {
            Form::Edit => edit_of_line(program, text).map(Change::Edit),
            Form::Exchange => exchange_of_text(program, text).map(Change::Exchange),
        }
    }

    /// The routine whose steps are changed.
    pub fn routine(&self) -> u8 {
        match self {
            Change::Edit(edit) => edit.routine(),
            Change::Exchange(exchange) => exchange.routine,
        }
    }

    /// The program after the change, or the first of 14 to 16 and 23 that it meets.
    pub fn made(&self, program: &Program) -> Result<Program, u32> {
        match self {
            Change::Edit(edit) => edited(program, *edit),
            Change::Exchange(exchange) => exchanged(program, exchange),
        }
    }

    /// The program after a change that it accepts.
    pub fn after(&self, program: &Program) -> Program {
        self.made(program).expect("the change is accepted")
    }

    /// The program without the steps that leave it, and still without those that join it. None for an
    /// add, which begins with no drop. An exchange always does, though its routine have no step.
    pub fn dropped(&self, program: &Program) -> Option<Program> {
        match self {
            Change::Edit(edit) => {
                let step = edit.leaves()?;
                Some(Change::Edit(Edit::Drop(step)).after(program))
            }
            Change::Exchange(exchange) => Some(emptied(program, exchange.routine)),
        }
    }
}

/// The program after the change that a text says, or the first refusal that the text meets.
pub fn changed_by_text(form: Form, program: &Program, text: &[u8]) -> Result<Program, u32> {
    Change::of_text(form, program, text)?.made(program)
}
