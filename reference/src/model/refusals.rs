//! The refusals: their numbers, and the forms in which they are handed on.

use crate::model::table::Pair;

// Of a line of a file.
pub const BAD_LINE: u32 = 1;
pub const UNKNOWN_KIND: u32 = 2;
pub const WRONG_COUNT: u32 = 3;
pub const ORDER: u32 = 4;
pub const RANGE: u32 = 5;
pub const TABLE_FULL: u32 = 6;
pub const END_COUNT: u32 = 7;
// Of the file as a whole.
pub const FILE_END: u32 = 8;
pub const PAIR_NOT_MET: u32 = 19;
pub const PAIR_MET_TWICE: u32 = 20;
// Of the sizes, of a file's program or of the one that an exchange would leave.
pub const SHEET_TOO_LARGE: u32 = 23;
// Of the buffers.
pub const SHEET_LENGTH: u32 = 9;
pub const OUTPUT_SHORT: u32 = 10;
pub const WORK_LENGTH: u32 = 11;
// Of an edit line, or of the text of an exchange; only the text can meet 21.
pub const BAD_EDIT: u32 = 12;
pub const EDIT_RANGE: u32 = 13;
pub const EXCHANGE_ORDER: u32 = 21;
pub const NOT_THERE: u32 = 14;
pub const THERE_ALREADY: u32 = 15;
pub const STEPS_FULL: u32 = 16;
// Of the sheet.
pub const FOREIGN_SHEET: u32 = 17;
// Of a fresh working with a limit.
pub const GAVE_UP: u32 = 22;
// Of moving a saved sheet: by the program, and by what is to be moved.
pub const NOT_FORMER: u32 = 24;
pub const FOREIGN_SAVED: u32 = 25;
// Of the input of `bench`.
pub const INPUT_LONG: u32 = 18;

/// How many numbers there are to answer with: every refusal's, and 0 for none.
pub const ANSWERS: usize = 26;

/// Why a file is refused: all faults of the line that decides, lowest first, and that line's number,
/// counted from 1. Where its table decides, the one fault is that of the first faulty pair, and where its
/// sizes decide, theirs; the line is then 0.
#[derive(Clone, Debug, PartialEq, Eq)]
pub struct FileRefusal {
    pub faults: Vec<u32>,
    pub line: u32,
    /// The first faulty pair, where the table decides.
    pub pair: Option<Pair>,
}

impl FileRefusal {
    /// The refusal of a line with these faults.
    pub fn of_line(faults: Vec<u32>, line: u32) -> FileRefusal {
        FileRefusal {
            faults,
            line,
            pair: None,
        }
    }

    /// The refusal of a file's table, by its first faulty pair.
    pub fn of_pair((fault, pair): (u32, Pair)) -> FileRefusal {
        FileRefusal {
            pair: Some(pair),
            ..FileRefusal::of_sizes(fault)
        }
    }

    /// The refusal of the sizes of a file's program.
    pub fn of_sizes(fault: u32) -> FileRefusal {
        FileRefusal::of_line(vec![fault], 0)
    }

    /// The refusal's number: the lowest fault.
    pub fn number(&self) -> u32 {
        self.faults[0]
    }
}

/// A refusal as a call answers it: its number and its line, which is 0 for all but those of a file's
/// lines.
#[derive(Clone, Copy, Debug, PartialEq, Eq)]
pub struct Refused {
    pub number: u32,
    pub line: u32,
}

impl From<&FileRefusal> for Refused {
    fn from(file: &FileRefusal) -> Refused {
        Refused {
            number: file.number(),
            line: file.line,
        }
    }
}

impl From<u32> for Refused {
    fn from(number: u32) -> Refused {
        Refused { number, line: 0 }
    }
}

/// The refusal with this number if it is met.
pub fn refuse_if(met: bool, number: u32) -> Result<(), u32> {
    if met {
        Err(number)
    } else {
        Ok(())
    }
}
