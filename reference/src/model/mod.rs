//! The model: what a program is, what it can do, and what the library has to answer.
//!
//! What is named by numbers stands in one place each:
//!
//! - `kinds` has the kinds of lines: frames, edits, and what `bench` prints.
//! - `refusals` has the refusals' numbers.
//! - `calls` has the calls of the C interface, with the answer that each has to get.
//!
//! Programs and their files:
//!
//! - `program` says what a program is, and `ranges` which numbers it may hold.
//! - `lines` reads and writes lines of hexadecimal, `file` reads a file into a program or says which
//!   line is refused, and why, and `write` writes a program.
//! - `table` has the rows in which a file may put down its rule, and the rule lines that they become.
//! - `edit` has the edits of a program's steps, and which of them are refused; `exchange` has the
//!   same of the exchanges of its routines. `change` is either.
//!
//! What a program can do:
//!
//! - `standing` has the standings, and their numbers in the sizes of a program.
//! - `moves` says what an action, a call or a return does to the rule's state.
//! - `fresh` works a program's standings afresh, the lowest first, and counts the takings; `former` does
//!   it as it was done before the rule could hear calls and returns; `acted_out` makes programs in which
//!   that comes to the same.
//! - `least` and `runs` find the same standings in two other ways: as a least set, and step by step
//!   with a stack of open calls.
//! - `analysis` has the sheet, the counts and the findings of a program, and `blocked` says where its
//!   runs are cut off.
//! - `keeping` keeps of any sheet what has support back to a start.
//! - `saved` has the two forms of a saved sheet, by the sizes that all programs once had.
//! - `groups` says which routines an inside-out repair reopens; `inside_out` follows the repair
//!   itself.
//!
//! The whole:
//!
//! - `book` is the plain book, and `lists` plays lists of calls with it and without it.
//! - `bench` gives all that the program `bench` prints.

pub mod acted_out;
pub mod analysis;
pub mod bench;
pub mod blocked;
pub mod book;
pub mod calls;
pub mod change;
pub mod edit;
pub mod exchange;
pub mod file;
pub mod former;
pub mod fresh;
pub mod groups;
pub mod inside_out;
pub mod keeping;
pub mod kinds;
pub mod least;
pub mod lines;
pub mod lists;
pub mod moves;
pub mod program;
pub mod ranges;
pub mod refusals;
pub mod runs;
pub mod saved;
pub mod standing;
pub mod table;
pub mod write;
