//! Reading a program file.
//!
//! A file is cut into lines, each line is judged against the frames before it, and the first
//! faulty line decides, with the lowest number among its faults. Only where no line has one, the
//! table is judged, in a file with rows, and last the length of the sheet.

use crate::model::kinds::{
    frames, place_of_frame, END, FORBIDDEN, ROUTINE, ROW, RULE, SIZES, START, STEP,
};
use crate::model::lines::{lines, numbers_of_kind, two_numbers};
use crate::model::program::{Program, RuleLine, Step, MOST_ROWS, MOST_RULE_LINES, MOST_STEPS};
use crate::model::ranges::{sizes_in_range, Ranges};
use crate::model::refusals::{
    refuse_if, FileRefusal, END_COUNT, FILE_END, ORDER, RANGE, SHEET_TOO_LARGE, TABLE_FULL,
};
use crate::model::standing::MOST_SHEET;
use crate::model::table::{rule_of_rows, Pair, Row};
use std::collections::BTreeSet;

/// What reading a file gives.
pub type Reading = Result<Program, FileRefusal>;

/// A frame's numbers, its kind first.
pub type Frame = Vec<u8>;

/// Reads a file: its program, or the refusal that it meets.
pub fn read(file: &[u8]) -> Reading {
    let mut before: Vec<Frame> = Vec::new();
    let mut line = 1;
    for text in lines(file) {
        let faults = match numbers_of_kind(&frames(known_states(&before)), text) {
            _ if ended(&before) => vec![FILE_END],
            Err(fault) => vec![fault],
            Ok(frame) => {
                let faults = faults_of_frame(&before, &frame);
                before.push(frame);
                faults
            }
        };
        if !faults.is_empty() {
            return Err(FileRefusal::of_line(faults, line));
        }
        line += 1;
    }
    if !ended(&before) {
        return Err(FileRefusal::of_line(vec![FILE_END], line));
    }
    program_of(&before)
}

/// How many states there are, as far as the accepted frames say it.
fn known_states(before: &[Frame]) -> u8 {
    before.first().map_or(0, |sizes| sizes[2])
}

fn ended(before: &[Frame]) -> bool {
    before.last().map(|frame| frame[0]) == Some(END)
}

/// The faults 4 to 7 of a frame, lowest first, given the accepted frames before it. Before the
/// sizes are known there is nothing to hold a frame's numbers against, so a first frame of another
/// kind has the one fault 4.
fn faults_of_frame(before: &[Frame], frame: &Frame) -> Vec<u32> {
    if before.is_empty() && frame[0] != SIZES {
        return vec![ORDER];
    }
    let mut faults = Vec::new();
    if order_broken(before, frame) {
        faults.push(ORDER);
    }
    if out_of_range(before, frame) {
        faults.push(RANGE);
    }
    if table_full(before, frame) {
        faults.push(TABLE_FULL);
    }
    if end_count_wrong(before, frame) {
        faults.push(END_COUNT);
    }
    faults
}

/// Refusal 4, for a frame that is not a wrong first one.
fn order_broken(before: &[Frame], frame: &Frame) -> bool {
    let last = match before.last() {
        Some(last) => last,
        None => return false,
    };
    let second_sizes = frame[0] == SIZES;
    let kind_too_late = place_of_frame(frame[0]) < place_of_frame(last[0]);
    let not_ascending = frame[0] == last[0] && frame[1..] <= last[1..];
    let misplaced = routine_misplaced(before, frame) || rule_mixed(before, frame);
    second_sizes || kind_too_late || not_ascending || misplaced
}

/// Whether this frame shows that a routine frame is left out or repeated. While routine frames are
/// missing, only the next of them may come. When all are there, none of them may come again; one
/// for a routine above them is a matter of range.
fn routine_misplaced(before: &[Frame], frame: &Frame) -> bool {
    let there = of_kind(before, ROUTINE).count();
    let missing = there < usize::from(before[0][1]);
    let routine = usize::from(frame[1]);
    match (frame[0] == ROUTINE, missing) {
        (true, true) => routine != there,
        (true, false) => routine < there,
        (false, missing) => missing,
    }
}

/// Whether this is a rule line in a file that has a row, or a row in a file that has a rule line.
fn rule_mixed(before: &[Frame], frame: &Frame) -> bool {
    let has = |kind| of_kind(before, kind).next().is_some();
    match frame[0] {
        RULE => has(ROW),
        ROW => has(RULE),
        _ => false,
    }
}

fn of_kind(frames: &[Frame], kind: u8) -> impl Iterator<Item = &Frame> {
    frames.iter().filter(move |frame| frame[0] == kind)
}

/// Refusal 5. The frames before begin with the sizes, unless this frame is the first.
fn out_of_range(before: &[Frame], frame: &Frame) -> bool {
    if frame[0] == SIZES {
        return !sizes_in_range(frame[1], frame[2], frame[3]);
    }
    let ranges = ranges_of(before);
    let fits = match frame[0] {
        ROUTINE => ranges.has_routine(frame[1], frame[2]),
        STEP => ranges.has_step(Step::of_numbers(&frame[1..])),
        RULE => ranges.has_rule_line(RuleLine::of_numbers(&frame[1..])),
        ROW => ranges.has_row(Row::of_numbers(&frame[1..])),
        START | FORBIDDEN => ranges.has_state(frame[1]),
        _ => true,
    };
    !fits
}

/// What accepted frames leave to hold the next against.
fn ranges_of(before: &[Frame]) -> Ranges {
    Ranges {
        routines: before[0][1],
        states: before[0][2],
        actions: before[0][3],
        places: of_kind(before, ROUTINE).map(|frame| frame[2]).collect(),
    }
}

/// Refusal 6.
fn table_full(before: &[Frame], frame: &Frame) -> bool {
    let there = of_kind(before, frame[0]).count();
    match frame[0] {
        STEP => there >= MOST_STEPS,
        RULE => there >= MOST_RULE_LINES,
        ROW => there >= MOST_ROWS,
        _ => false,
    }
}

/// Refusal 7.
fn end_count_wrong(before: &[Frame], frame: &Frame) -> bool {
    frame[0] == END && frame[1..] != two_numbers(before.len())
}

/// The program that accepted frames say; or the refusal of their table, 19 or 20, or of their sizes, 23.
fn program_of(frames: &[Frame]) -> Reading {
    let ranges = ranges_of(frames);
    let step = |frame: &Frame| Step::of_numbers(&frame[1..]);
    let state = |frame: &Frame| frame[1];
    let program = Program {
        rule: rule_of(frames, &ranges).map_err(FileRefusal::of_pair)?,
        places: ranges.places,
        states: ranges.states,
        actions: ranges.actions,
        steps: of_kind(frames, STEP).map(step).collect(),
        starts: of_kind(frames, START).map(state).collect(),
        forbidden: of_kind(frames, FORBIDDEN).map(state).collect(),
    };
    check_sizes(&program).map_err(FileRefusal::of_sizes)?;
    Ok(program)
}

/// Refusal 23, by the length that the program's sheet would have.
pub fn check_sizes(program: &Program) -> Result<(), u32> {
    refuse_if(program.sizes().length() > MOST_SHEET, SHEET_TOO_LARGE)
}

/// The rule that accepted frames say, or the first faulty pair of their table. Nothing is asked of a rule
/// that is put down in lines.
fn rule_of(frames: &[Frame], ranges: &Ranges) -> Result<BTreeSet<RuleLine>, (u32, Pair)> {
    let rule_line = |frame: &Frame| RuleLine::of_numbers(&frame[1..]);
    let row = |frame: &Frame| Row::of_numbers(&frame[1..]);
    let rows: Vec<Row> = of_kind(frames, ROW).map(row).collect();
    if rows.is_empty() {
        return Ok(of_kind(frames, RULE).map(rule_line).collect());
    }
    rule_of_rows(&rows, ranges.states, ranges.actions)
}

#[cfg(test)]
mod tests {
    use super::*;
    use crate::cases::{self, sample};
    use crate::model::program::Label;

    #[test]
    fn sample_is_read_as_the_program_it_says() {
        let program = sample::program();
        assert_eq!(program.places, [3, 2]);
        assert_eq!((program.states, program.actions), (3, 2));
        let call = Step {
            routine: 0,
            from: 0,
            label: Label::Call(1),
            to: 2,
        };
        assert!(program.steps.contains(&call));
        assert_eq!((program.steps.len(), program.rule.len()), (3, 4));
        assert_eq!(program.starts, BTreeSet::from([0]));
        assert_eq!(program.forbidden, BTreeSet::from([2]));
    }

    #[test]
    fn named_cases_get_the_answers_worked_out_by_hand() {
        for case in cases::files::all() {
            let answer = match read(&case.file) {
                Ok(_) => (0, 0),
                Err(refusal) => (refusal.number(), refusal.line),
            };
            assert_eq!(answer, (case.refusal, case.line), "{}", case.name);
        }
    }

    #[test]
    fn several_faults_of_one_line_are_all_seen() {
        let faults_of_file = |file: &[u8]| read(file).expect_err("a fault").faults;
        let file = b"50010101\n520002\n5300000000\n4900\n4900\n520141\n";
        assert_eq!(faults_of_file(file), [ORDER]);
        let file = b"50010101\n520002\n4901\n4900\n";
        assert_eq!(faults_of_file(file), [RANGE]);
        let file = b"50010101\n520002\n4900\n520141\n";
        assert_eq!(faults_of_file(file), [ORDER, RANGE]);
        let file = b"50010101\n450000\n";
        assert_eq!(faults_of_file(file), [ORDER, END_COUNT]);
    }
}
