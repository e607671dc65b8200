//! Classes of files with rows, and counts of them, so that it shows which were met.
//!
//! A file's classes are read off its lines and off its reading, whatever it was made for.

use crate::generate::met::{holding, Times};
use crate::model::file::Reading;
use crate::model::kinds::{frames, ROW, RULE, SIZES};
use crate::model::lines::{lines, numbers_of_kind, numbers_of_line, starts_with_kind};
use crate::model::program::{Program, MOST_ROWS};
use crate::model::ranges::sizes_in_range;
use crate::model::refusals::{
    FileRefusal, BAD_LINE, END_COUNT, FILE_END, ORDER, PAIR_MET_TWICE, PAIR_NOT_MET, RANGE,
    SHEET_TOO_LARGE, TABLE_FULL, WRONG_COUNT,
};
use crate::model::table::{line_of_pair, pairs, Row};
use crate::model::write::{write, OUTPUT_SIZE};

/// What a file with rows can be like.
#[derive(Clone, Copy, Debug, PartialEq, Eq, PartialOrd, Ord)]
pub enum Class {
    Accepted,
    OneRow,
    /// More rows than one and fewer than pairs.
    Grouped,
    /// 256 rows, which are all that there may be.
    MostRows,
    /// 16 states and 32 actions.
    MostPairs,
    /// More than 8 states, so that a row has two numbers of state bits.
    TwoNumbers,
    NoStateBit,
    NoActionBit,
    /// More bytes than are written for it, and fewer.
    Longer,
    Shorter,
    /// More bytes than any file has that is accepted.
    LongAndRefused,
    /// 19 and 20.
    NotMet,
    MetTwice,
    /// The same, and a later pair has the other fault.
    NotMetFirst,
    MetTwiceFirst,
    /// The same, and by action, then state, the other fault would decide.
    NotMetByState,
    MetTwiceByState,
    /// 4: both kinds in one file.
    RowAfterRuleLine,
    RuleLineAfterRow,
    /// 4: a row as the one before it, and one below it.
    Repeated,
    Descending,
    /// 5: a bit or a next state at or above its limit, and each just at it.
    StateBit,
    ActionBit,
    NextState,
    StateBitAtLimit,
    ActionBitAtLimit,
    NextStateAtLimit,
    /// 6; and 5 or 4 at the same row.
    Row257,
    Row257AndRange,
    Row257AndOrder,
    /// 1 and 3 at a row.
    BadRow,
    WrongCountRow,
    /// 3: seven numbers up to 8 states, and six above.
    SevenNumbers,
    SixNumbers,
    /// 23.
    TooLarge,
    /// 7 and 8 after rows.
    EndCount,
    FileEnd,
}

use Class::*;

/// All that have to be met.
const ALL: [Class; 37] = [
    Accepted,
    OneRow,
    Grouped,
    MostRows,
    MostPairs,
    TwoNumbers,
    NoStateBit,
    NoActionBit,
    Longer,
    Shorter,
    LongAndRefused,
    NotMet,
    MetTwice,
    NotMetFirst,
    MetTwiceFirst,
    NotMetByState,
    MetTwiceByState,
    RowAfterRuleLine,
    RuleLineAfterRow,
    Repeated,
    Descending,
    StateBit,
    ActionBit,
    NextState,
    StateBitAtLimit,
    ActionBitAtLimit,
    NextStateAtLimit,
    Row257,
    Row257AndRange,
    Row257AndOrder,
    BadRow,
    WrongCountRow,
    SevenNumbers,
    SixNumbers,
    TooLarge,
    EndCount,
    FileEnd,
];

/// How many files with rows there were, and how many of each class.
#[derive(Clone, Debug, Default)]
pub struct MetClasses {
    pub files: usize,
    times: Times<Class>,
}

impl MetClasses {
    /// Notes a file, if a row of it was judged.
    pub fn note(&mut self, file: &[u8], reading: &Reading) {
        let judged = judged_lines(file, reading);
        if !judged.iter().any(|line| starts_with_kind(line, ROW)) {
            return;
        }
        self.files += 1;
        self.times.note(match reading {
            Ok(program) => accepted(file, program, &rows(&judged, program.states)),
            Err(refusal) => refused(file, refusal, &judged),
        });
    }

    pub fn times(&self, class: Class) -> usize {
        self.times.of(class)
    }

    /// Each class has to be met so many times at the least.
    pub fn check(&self, least: usize) {
        self.times.check(ALL, least);
    }
}

/// The lines up to the one that decides; all of them where it is none.
fn judged_lines<'a>(file: &'a [u8], reading: &Reading) -> Vec<&'a [u8]> {
    let mut judged = lines(file);
    match reading {
        Err(refusal) if refusal.line > 0 => judged.truncate(refusal.line as usize),
        _ => {}
    }
    judged
}

/// The rows among these lines of a file with so many states, as far as they are well-formed.
pub fn rows(lines: &[&[u8]], states: u8) -> Vec<Row> {
    let kinds = frames(states);
    let frames = lines.iter().flat_map(|line| numbers_of_kind(&kinds, line));
    let rows = frames.filter(|frame| frame[0] == ROW);
    rows.map(|frame| Row::of_numbers(&frame[1..])).collect()
}

fn accepted(file: &[u8], program: &Program, rows: &[Row]) -> Vec<Class> {
    let pairs = program.rule.len();
    let written = write(program).len();
    holding(&[
        (true, Accepted),
        (rows.len() == 1, OneRow),
        (rows.len() > 1 && rows.len() < pairs, Grouped),
        (rows.len() == MOST_ROWS, MostRows),
        (pairs == 512, MostPairs),
        (program.states > 8, TwoNumbers),
        (rows.iter().any(|row| row.state_bits == 0), NoStateBit),
        (rows.iter().any(|row| row.action_bits == 0), NoActionBit),
        (file.len() > written, Longer),
        (file.len() < written, Shorter),
    ])
}

/// The classes of a refused file. The last of the judged lines decides, unless the table does.
fn refused(file: &[u8], refusal: &FileRefusal, judged: &[&[u8]]) -> Vec<Class> {
    let mut classes: Vec<Class> = holding(&[(file.len() > OUTPUT_SIZE, LongAndRefused)]);
    let sizes = match judged.first().and_then(|line| numbers_of_line(line)) {
        Some(sizes) if sizes.len() == 4 && sizes[0] == SIZES => sizes,
        _ => return classes,
    };
    if !sizes_in_range(sizes[1], sizes[2], sizes[3]) {
        return classes;
    }
    let (states, actions) = (sizes[2], sizes[3]);
    let last = judged[judged.len() - 1];
    let (at_row, rows) = (starts_with_kind(last, ROW), rows(judged, states));
    let count = last.len() / 2;
    let is_257th = at_row && rows.len() == MOST_ROWS + 1;
    classes.extend(match refusal.number() {
        BAD_LINE => holding(&[(at_row, BadRow)]),
        WRONG_COUNT => holding(&[
            (at_row, WrongCountRow),
            (at_row && count == 1 + 7, SevenNumbers),
            (at_row && count == 1 + 6, SixNumbers),
        ]),
        ORDER if is_257th => vec![Row257AndOrder],
        ORDER => out_of_order(judged),
        RANGE if is_257th => vec![Row257AndRange],
        RANGE if at_row => out_of_range(rows[rows.len() - 1], states, actions),
        TABLE_FULL => holding(&[(is_257th, Row257)]),
        SHEET_TOO_LARGE => vec![TooLarge],
        END_COUNT => vec![EndCount],
        FILE_END => vec![FileEnd],
        PAIR_NOT_MET | PAIR_MET_TWICE => faulty_pairs(&rows, states, actions),
        _ => Vec::new(),
    });
    classes
}

/// The last line against the one before it.
fn out_of_order(judged: &[&[u8]]) -> Vec<Class> {
    let (before, last) = match judged {
        [.., before, last] => (before, last),
        _ => return Vec::new(),
    };
    let of_kinds = |one, other| starts_with_kind(before, one) && starts_with_kind(last, other);
    let both_rows = of_kinds(ROW, ROW);
    holding(&[
        (of_kinds(RULE, ROW), RowAfterRuleLine),
        (of_kinds(ROW, RULE), RuleLineAfterRow),
        (both_rows && last == before, Repeated),
        (both_rows && last < before, Descending),
    ])
}

fn out_of_range(row: Row, states: u8, actions: u8) -> Vec<Class> {
    let has_state = |limit: u8| row.states().any(|state| state >= limit);
    let has_action = |limit: u8| row.actions().any(|action| action >= limit);
    let state_at = has_state(states) && !has_state(states + 1);
    let action_at = has_action(actions) && !has_action(actions + 1);
    holding(&[
        (has_state(states), StateBit),
        (has_action(actions), ActionBit),
        (row.to >= states, NextState),
        (state_at, StateBitAtLimit),
        (action_at, ActionBitAtLimit),
        (row.to == states, NextStateAtLimit),
    ])
}

/// The classes of a table with faulty pairs, by their order.
fn faulty_pairs(rows: &[Row], states: u8, actions: u8) -> Vec<Class> {
    let fault = |pair| line_of_pair(rows, pair).err();
    let by_state: Vec<u32> = pairs(states, actions).filter_map(fault).collect();
    let turned = pairs(actions, states).map(|(action, state)| (state, action));
    let by_action: Vec<u32> = turned.filter_map(fault).collect();
    let (first, of_action) = (by_state[0], by_action[0]);
    let mixed = by_state.iter().any(|&other| other != first);
    let turns = of_action != first;
    let not_met = first == PAIR_NOT_MET;
    holding(&[
        (not_met, NotMet),
        (!not_met, MetTwice),
        (not_met && mixed, NotMetFirst),
        (!not_met && mixed, MetTwiceFirst),
        (not_met && turns, NotMetByState),
        (!not_met && turns, MetTwiceByState),
    ])
}
